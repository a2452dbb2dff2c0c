#!/usr/bin/env python3
"""Writes a text of 16 MiB of labels in mixed order, none twice, and one instruction.   bench/labels.py LENGTH > TEXT
LENGTH is how many characters a label has, 4 to 16."""
import random
import string
import sys

SIZE = 16 * 1024 * 1024
INSTRUCTION = "nop\n"
LETTERS = string.ascii_letters
OTHERS = LETTERS + string.digits + "_"

length = int(sys.argv[1])
random.seed(length)
labels = {}
while (len(labels) + 1) * (length + 2) + len(INSTRUCTION) <= SIZE:
    labels[random.choice(LETTERS) + "".join(random.choices(OTHERS, k=length - 1))] = None
for label in labels:
    print(label, end=":\n")
print(INSTRUCTION, end="")
