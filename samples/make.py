#!/usr/bin/env python3
"""Writes a log from its description:  samples/make.py samples/NAME.txt > samples/NAME.log

A description has a line for each transaction, numbered from 0:   cabinet C: OPERATION, OPERATION ..
An operation is `read K from U` (transaction U), `read K at start`, or `write K V`. '#' starts a comment. Nothing is tested here: Judge does that.
"""
import struct
import sys

START = 65535


def operation(text):
    word, key, *rest = text.split()
    if word == "write":
        return 1, int(key), int(rest[0])
    return 0, int(key), START if rest == ["at", "start"] else int(rest[1])


entries, bodies = b"", b""
transactions = operations = 0
for line in open(sys.argv[1]):
    line = line.split("#")[0].strip()
    if not line:
        continue
    head, _, body = line.partition(":")
    items = [operation(part) for part in body.split(",") if part.strip()]
    entries += struct.pack("<BBH", int(head.split()[1]), len(items), operations)
    bodies += b"".join(struct.pack("<BBH", *item) for item in items)
    transactions += 1
    operations += len(items)
sys.stdout.buffer.write(struct.pack("<HH", transactions, operations) + entries + bodies)
