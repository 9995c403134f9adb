#!/usr/bin/env python3
"""Compares the digest of each length from 0 to 130 with Python's hashlib, which shares no code with this repository.

The digests are those that the program `vectors` prints, of the octets 0, 1, 2 and so on. Build it first: rt run in
crates/vectors
(or give the program's path). Ends with status 1 if a length is missing, twice there or differs."""
import hashlib
import os
import re
import subprocess
import sys

root = os.path.dirname(os.path.dirname(os.path.abspath(__file__)))
program = sys.argv[1] if len(sys.argv) > 1 else os.path.join(root, "crates", "vectors", "out", "vectors")
if not os.path.exists(program):
    sys.exit(f"{program} is not there: run rt run in crates/vectors first")
ran = subprocess.run([program], capture_output=True, text=True)
lines = re.findall(r"^length (\d+), in parts too (\w+): ([0-9a-f]{64})$", ran.stdout, re.M)
faults = []
if ran.returncode != 0:
    faults.append(f"the program ended with status {ran.returncode}")
if [int(n) for n, _, _ in lines] != list(range(131)):
    faults.append("the lengths are not 0 to 130, each once and in order")
for n, parts, digest in lines:
    due = hashlib.sha256(bytes(range(int(n)))).hexdigest()
    if digest != due:
        faults.append(f"length {n}: {digest}, and hashlib has {due}")
    if parts != "true":
        faults.append(f"length {n}: another digest where the message comes in parts")
for fault in faults:
    print(fault)
print(f"digest lengths: {len(lines)} compared with hashlib, {len(faults)} faults")
sys.exit(1 if faults else 0)
