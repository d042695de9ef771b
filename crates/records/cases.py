#!/usr/bin/env python3
"""Writes the file stdin beside it: both sides of every field limit of a book's records (document 01, The book).

Each case changes one field of a record that is fine. A line that starts with # names the case; the next is the record.
"""
import pathlib
import struct

lines = []


def case(kind, context, record, name, place=0, size=0, value=0):
    record = bytearray(record)
    record[place : place + size] = (value % 256**size).to_bytes(size, "little")
    lines.append(f"#{kind} {name}" + (f" {value}" if size else ""))
    lines.append(f"{kind} {context} {record.hex()}")


def each(kind, context, record, name, place, size, *values):
    for value in values:
        case(kind, context, record, name, place, size, value)


def table(units, requirements):
    counts, sizes, start = [1, 5, units, requirements], [8, 368, 372, 24], 56
    record = bytes.fromhex("46434631") + struct.pack("<HH", 4, 0)
    for i in range(4):
        record += struct.pack("<HHII", i + 1, counts[i], start, counts[i] * sizes[i])
        start += counts[i] * sizes[i]
    return record


ten_good = b"\xff" * 9 + b"\x07"
two_bad = b"\xfe" + b"\xff" * 8 + b"\x03"  # the first point and the last

each("contents", "-", table(2, 1), "mark", 0, 4, 0x31464346, 0x31464347)
each("contents", "-", table(2, 1), "entries", 4, 2, 3, 4, 5)
each("contents", "-", table(2, 1), "zero field", 6, 2, 0, 1)
for units in (0, 512, 513):
    case("contents", "-", table(units, 1), f"units {units}")
for requirements in (0, 1, 32, 33):
    case("contents", "-", table(2, requirements), f"requirements {requirements}")
each("contents", "-", table(2, 1), "settings items", 10, 2, 0, 1, 2)
each("contents", "-", table(2, 1), "frequency items", 22, 2, 4, 5, 6)
for i, name in enumerate(("settings", "frequency", "unit", "requirement")):
    kind, _, start, length = struct.unpack_from("<HHII", table(2, 1), 8 + 12 * i)
    each("contents", "-", table(2, 1), f"{name} kind", 8 + 12 * i, 2, kind - 1, kind, kind + 1)
    each("contents", "-", table(2, 1), f"{name} offset", 12 + 12 * i, 4, start - 1, start, start + 1)
    each("contents", "-", table(2, 1), f"{name} length", 16 + 12 * i, 4, length - 1, length, length + 1)
for n in (0, 55, 56, 57):
    case("contents", "-", (table(2, 1) + b"\0")[:n], f"bytes {n}")

settings = struct.pack("<HBBI", 5000, 10, 20, 7)
each("settings", "-", settings, "smoothing", 0, 2, 0, 1, 10000, 10001)
each("settings", "-", settings, "limit", 2, 1, 0, 75, 76)
each("settings", "-", settings, "percent", 3, 1, 0, 100, 101)
each("settings", "-", settings, "interval", 4, 4, 0, 2**32 - 1)
for n in (0, 7, 8, 9):
    case("settings", "-", (settings + b"\0")[:n], f"bytes {n}")

six = ("raise payment", "raise used", "raise unused", "lower payment", "lower used", "lower unused")
middle = struct.pack("<iI6q", 0, 0, *[0] * 6)
frequency = b"\3\0" + ten_good + middle + struct.pack("<75I", *[50_000_000] * 75)
bad = b"\3\0" + two_bad + middle + struct.pack("<75I", 0, *[50_000_000] * 73, 0)
each("frequency", 3, frequency, "region", 0, 1, 2, 3, 4)
each("frequency", 3, frequency, "separation", 1, 1, 0, 1, 2)
each("frequency", 3, frequency, "last quality byte", 11, 1, 7, 8, 15, 135)
each("frequency", 3, frequency, "FM before", 12, 4, -5_000_001, -5_000_000, 5_000_000, 5_000_001)
each("frequency", 3, frequency, "generation", 16, 4, 0, 2_000_000, 2_000_001)
for i, name in enumerate(six):
    each("frequency", 3, frequency, name, 20 + 8 * i, 8, -(5 * 10**16) - 1, -(5 * 10**16), 0, 1)
for name, place in (("first point", 68), ("last point", 364)):
    each("frequency", 3, frequency, name, place, 4, 0, 44_999_999, 45_000_000, 55_000_000, 55_000_001)
    each("frequency", 3, bad, name + ", bad,", place, 4, 0, 1, 50_000_000)
for n in (0, 367, 368, 369):
    case("frequency", 3, (frequency + b"\0")[:n], f"bytes {n}")

header = struct.pack("<HBBii6q", 5, 0, 0, 0, 0, *[0] * 6)
unit = header + ten_good + b"\0\0" + bytes(300)
bad = header + two_bad + b"\0\0" + bytes(300)
each("unit", 5, unit, "number", 0, 2, 0, 4, 5, 65535)
each("unit", 5, unit, "region", 2, 1, 0, 4, 5)
each("unit", 5, unit, "kind", 3, 1, 0, 1, 2)
power = (-100_001, -100_000, 100_000, 100_001)
each("unit", 5, unit, "start", 4, 4, *power)
each("unit", 5, unit, "end", 8, 4, *power)
for i, name in enumerate(six):
    each("unit", 5, unit, name, 12 + 8 * i, 8, -5_625 * 10**12 - 1, -5_625 * 10**12, 0, 1)
each("unit", 5, unit, "last quality byte", 69, 1, 7, 8, 15, 135)
each("unit", 5, unit, "group", 70, 2, 0, 1, 256, 65535)
for name, place in (("first reading", 72), ("last reading", 368)):
    each("unit", 5, unit, name, place, 4, *power, 0)
    each("unit", 5, bad, name + ", bad,", place, 4, -1, 0, 1)
for n in (0, 371, 372, 373):
    case("unit", 5, (unit + b"\0")[:n], f"bytes {n}")

requirement = struct.pack("<HBBIQII", 5, 1, 0, 1200, 1000, 1000, 333)
for kind in ("requirement", "last"):
    for n in (0, 23, 24, 25):
        case(kind, 5, (requirement + b"\0")[:n], f"bytes {n}")
each("requirement", 5, requirement, "number", 0, 2, 0, 4, 5, 65535)
each("requirement", 5, requirement, "set", 2, 1, 0, 1, 31, 32, 255)
each("requirement", 5, requirement, "direction", 3, 1, 0, 1, 2)
each("requirement", 5, requirement, "price", 4, 4, 0, 10**7, 10**7 + 1)
each("requirement", 5, requirement, "cost", 8, 8, 0, 10**12, 10**12 + 1)
each("requirement", 5, requirement, "enabled", 16, 4, 0, 2_000_000, 2_000_001)
each("requirement", 5, requirement, "used", 20, 4, 0, 2_000_000, 2_000_001)

(pathlib.Path(__file__).parent / "stdin").write_text("\n".join(lines) + "\n")
