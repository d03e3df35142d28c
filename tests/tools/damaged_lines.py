#!/usr/bin/env python3
"""Lines for the line program: `damaged_lines.py SEED COUNT` writes legal forms and every kind of damage, as bytes, to standard output.
The last line has no newline."""
import random
import sys


def line(numbers):
    return b"".join(b"%4d" % x for x in numbers)


def record(r):
    """Numbers that are often a legal form."""
    return [r.randint(1, 67), r.randint(0, 6), r.choice([0, 0, 0, 1, 2, 7, 8]), r.randint(0, 31), r.randint(0, 31),
            r.choice([0, r.randint(0, 31)])]


def damaged(r):
    numbers = record(r)
    kind = r.randrange(16)
    if kind == 0:
        numbers[r.randrange(6)] = r.choice([0, 9, 10, 31, 32, 63, 64, 67, 68, 99, 100, 999, 1000, 9999])
        return line(numbers)
    b = bytearray(line(numbers))
    at = r.randrange(len(b))
    if kind == 1:
        return bytes(b[:at])
    if kind == 2:
        return bytes(b) + b" "
    if kind == 3:
        return bytes(b) + b"\r"
    if kind == 4:
        return b" " + bytes(b)
    if kind == 5:
        b[at] = r.choice(b"\t\r\0")
    elif kind == 6:
        b[at] = r.randrange(256)
    elif kind == 7:
        field = r.randrange(6) * 4
        b[field:field + 4] = b"%0*d" % (r.choice([2, 3, 4]), numbers[field // 4])
    elif kind == 8:
        field = r.randrange(6) * 4
        b[field:field + 4] = b"%-4d" % numbers[field // 4]
    elif kind == 9:
        field = r.randrange(6) * 4
        b[field:field + 4] = r.choice([b"    ", b"0000", b"  00", b"  -1", b"  +1", b" 1 1", b"1   ", b" 0x1", b"  1.", b"10 0"])
    elif kind == 10:
        return b" ".join(b"%d" % x for x in numbers)
    elif kind == 11:
        return b""
    elif kind == 12:
        return bytes(b) * r.choice([2, 3, 100])
    elif kind == 13:
        return bytes(r.randrange(256) for _ in range(24))
    elif kind == 14:
        return bytes(r.choice(b" 0123456789") for _ in range(24))
    return bytes(b)


def main():
    r = random.Random(int(sys.argv[1]))
    lines = []
    for _ in range(int(sys.argv[2])):
        lines.append(line(record(r)) if r.randrange(3) == 0 else damaged(r))
    sys.stdout.buffer.write(b"\n".join(x.replace(b"\n", b"?") for x in lines))


main()
