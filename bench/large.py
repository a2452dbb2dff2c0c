#!/usr/bin/env python3
"""Writes an image of 256 instructions that the verifier accepts: the program of moesif.bk behind branches that go to
the next place, each with a know line.   bench/large.py MOESIF > IMAGE"""
import struct
import sys

IDLE = 0xFF08225508242811
BRANCHES = {0x20, 0x21, 0x22, 0x23, 0x24, 0x25}  # bi, beq, bne, blt, bge, bk
EQUAL = 0x21 << 56

with open(sys.argv[1], "rb") as file:
    image = file.read()
count, lines = struct.unpack_from("<II", image, 8)
words = struct.unpack_from(f"<{count}Q", image, 16)
knows = [struct.unpack_from("<IQ", image, 16 + 8 * count + 12 * line) for line in range(lines)]

before = 256 - count
words = [EQUAL | place + 1 for place in range(before)] + [
    word + before if word >> 56 in BRANCHES else word for word in words
]
knows = [(place, IDLE) for place in range(before)] + [(place + before, mask) for place, mask in knows]

out = b"BKUC" + struct.pack("<BxxxII", 1, len(words), len(knows))
out += b"".join(struct.pack("<Q", word) for word in words)
out += b"".join(struct.pack("<IQ", place, mask) for place, mask in knows)
sys.stdout.buffer.write(out)
