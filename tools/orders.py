#!/usr/bin/env python3
"""Turns readable lines into order records, and records into lines.

    python3 tools/orders.py encode < LINES > RECORDS
    python3 tools/orders.py decode < RECORDS > LINES

A record has ten bytes: a letter, what the letter uses, and zeros. A line is one of these; '#' starts a comment:

    O                                                   open a clause
    S                                                   add a state
    E STATE                                             make the state an ending
    M FROM TO care CARE value VALUE first MINUTE last MINUTE    write a move
    C                                                   check the clause
    B  or  I  or  X                                     join it by both, either, except
    T                                                   turn the rule
    K                                                   discard the clause
    hex BYTE BYTE ..                                    any bytes, in hexadecimal

A number fits its bytes: 0 to 255, or 0 to 65535 for a minute. Whether numbers make a guard is left to the
program, so that refused records can be written too. Bytes that no line above gives are decoded as hex.
"""

import re
import struct
import sys

RECORD_BYTES = 10
PLAIN = "OSCBIXTK"
WRITE = re.compile(r"M (\d+) (\d+) care (\d+) value (\d+) first (\d+) last (\d+)")
MARK = re.compile(r"E (\d+)")


def encode_line(line):
    """The bytes of one line."""
    words = " ".join(line.split("#")[0].split())
    if words == "":
        return b""
    if words.startswith("hex "):
        return bytes.fromhex(words[4:])
    if len(words) == 1 and words in PLAIN:
        return words.encode().ljust(RECORD_BYTES, b"\0")
    if mark := MARK.fullmatch(words):
        return struct.pack(">cB8x", b"E", int(mark[1]))
    if write := WRITE.fullmatch(words):
        return struct.pack(">cBBBBxHH", b"M", *map(int, write.groups()))
    raise ValueError("no order")


def decode_record(record):
    """The line of one record."""
    line = "hex " + record.hex(" ")
    if len(record) != RECORD_BYTES:
        return line
    letter = chr(record[0])
    if letter == "M":
        _, start, to, care, value, first, last = struct.unpack(">cBBBBxHH", record)
        said = f"M {start} {to} care {care} value {value} first {first} last {last}"
    elif letter == "E":
        said = f"E {record[1]}"
    else:
        said = letter
    return said if letter in PLAIN + "EM" and encode_line(said) == record else line


def encode(lines):
    """The bytes of all lines."""
    records = []
    for number, line in enumerate(lines, 1):
        try:
            records.append(encode_line(line))
        except (ValueError, struct.error) as why:
            sys.exit(f"line {number}: {why}: {line.rstrip()}")
    return b"".join(records)


def decode(data):
    """The lines of all records; the last may be short."""
    starts = range(0, len(data), RECORD_BYTES)
    return "".join(decode_record(data[i : i + RECORD_BYTES]) + "\n" for i in starts)


def main():
    if sys.argv[1:] == ["encode"]:
        sys.stdout.buffer.write(encode(sys.stdin))
    elif sys.argv[1:] == ["decode"]:
        sys.stdout.write(decode(sys.stdin.buffer.read()))
    else:
        sys.exit(__doc__)


if __name__ == "__main__":
    main()
