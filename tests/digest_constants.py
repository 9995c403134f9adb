#!/usr/bin/env python3
"""Compares the constants of SHA-256 in specs/ and in src/ with what FIPS 180-4 says they are: the first 32 bits of the fractional
parts of the cube roots of the first 64 primes, and of the square roots of the first eight. Ends with status 1 if one differs."""
import math
import os
import re
import sys

root = os.path.dirname(os.path.dirname(os.path.abspath(__file__)))


def primes(count):
    found, n = [], 2
    while len(found) < count:
        if all(n % p for p in found):
            found.append(n)
        n += 1
    return found


def cube_root(n):
    """The whole part of the cube root."""
    low, high = 0, n + 1
    while high - low > 1:
        mid = (low + high) // 2
        low, high = (mid, high) if mid**3 <= n else (low, mid)
    return low


rounds = [cube_root(p << 96) & 0xFFFFFFFF for p in primes(64)]
initial = [math.isqrt(p << 64) & 0xFFFFFFFF for p in primes(8)]
tables = [
    ("crates/compression/specs/Constants.antt", "constants =", rounds),
    ("crates/compression/src/constants.rt", "const K:", rounds),
    ("crates/digest/specs/Sha256.antt", "initial =", initial),
    ("crates/digest/src/constants.rt", "const INITIAL:", initial),
]
faults = 0
for path, start, due in tables:
    text = open(os.path.join(root, path), encoding="utf-8").read().split(start, 1)[1]
    have = [int(word.replace("_", ""), 16) for word in re.findall(r"0x([0-9a-f]{4}_[0-9a-f]{4})", text)]
    if have != due:
        faults += 1
        print(f"{path}: another table than the roots give")
print(f"digest constants: {len(tables)} tables compared with the roots of primes, {faults} faults")
sys.exit(1 if faults else 0)
