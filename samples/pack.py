#!/usr/bin/env python3
"""Writes all logs of this folder one after another, for the test program `writings`: of each its name in 8 bytes, its length in two, the low byte first, and
its bytes. The program's input is at most 4,096 bytes.

    samples/pack.py > crates/writings/stdin
"""
import pathlib
import struct
import sys

packed = b""
for log in sorted(pathlib.Path(__file__).parent.glob("*.log")):
    name, data = log.stem.ljust(8).encode(), log.read_bytes()
    assert len(name) == 8, f"{log}: a name of more than 8 bytes"
    packed += struct.pack("<8sH", name, len(data)) + data
assert len(packed) <= 4096, "more than 4,096 bytes"
sys.stdout.buffer.write(packed)
