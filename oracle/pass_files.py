#!/usr/bin/env python3
"""Writes pass files with their answers, as lines of answers (README.md) of the kind pass_rule: good, odd and damaged files.

The answers are worked out here from document 01's words and RFC 3339, with Python's exact decimal reading and its calendar; none of the
port's code is used. `oracle/store` puts them into the list that the program `replay` is run on.
"""
import calendar
import datetime
import re
import struct

BLANKS = bytes([9, 10, 11, 12, 13, 32])
TIME = re.compile(rb"(\d{4})-(\d\d)-(\d\d)[Tt](\d\d):(\d\d):(\d\d)(?:\.(\d+))?(?:([Zz])|([+-])(\d\d):(\d\d))\Z", re.A)
NUMBER = re.compile(rb"([+-]?)(?:(\d+)(?:\.(\d*))?|\.(\d+))(?:[eE]([+-]?)(\d+))?\Z", re.A)
NAMED = re.compile(rb"([+-]?)(inf|infinity|nan)\Z", re.I)


def number(text):
    """A float, None where Rust takes it for no number, or 'refused' by refusal 3."""
    if NAMED.match(text):
        return float(text)
    m = NUMBER.match(text)
    if not m:
        return None
    digits = (m.group(2) or b"") + (m.group(3) or b"") + (m.group(4) or b"")
    exponent = m.group(6) or b""
    if len(digits) > 19 or len(exponent) > 2 or int(exponent or b"0") > 30:
        return "refused"
    return float(text)


def moment(text):
    """Nanoseconds since 1970, or None."""
    m = TIME.match(text)
    if not m:
        return None
    year, month, day, hour, minute, second = (int(m.group(k)) for k in range(1, 7))
    if not 1 <= month <= 12 or hour > 23 or minute > 59 or second > 59:
        return None
    # the calendar repeats every 400 years; Python's has no year 0
    shifted = year + 400
    if not 1 <= day <= calendar.monthrange(shifted, month)[1]:
        return None
    days = days_before(shifted, month, day) - 146097
    offset = 0
    if m.group(9):
        oh, om = int(m.group(10)), int(m.group(11))
        if oh > 23 or om > 59:
            return None
        offset = (oh * 3600 + om * 60) * (1 if m.group(9) == b"+" else -1)
    nanos = int((m.group(7) or b"").ljust(9, b"0")[:9])
    return (days * 86400 + hour * 3600 + minute * 60 + second - offset) * 10**9 + nanos


def days_before(year, month, day):
    cycles = 0
    while year > 9999:
        year, cycles = year - 400, cycles + 1
    return datetime.date(year, month, day).toordinal() - datetime.date(1970, 1, 1).toordinal() + cycles * 146097


LOW = -410227200 * 10**9
HIGH = 2745532800 * 10**9


def read(data, places):
    zeros = lambda k: (k, 0, 0, 0, 0.0, 0, [])
    start, end, seen, centre, samples = 0, 0, 0, 150800000.0, []
    at = 0
    while at < len(data):
        lf = data.find(b"\n", at)
        stop, after = (len(data), len(data)) if lf < 0 else (lf, lf + 1)
        if lf > at and data[lf - 1] == 13:
            stop -= 1
        line, here, at = data[at:stop], at, after
        if any(c > 127 for c in line):
            return zeros(1)
        if len(line) > 256:
            return zeros(2)
        text = line.strip(BLANKS)
        if not text:
            continue
        if text[:1] == b"#":
            key, colon, value = text[1:].partition(b":")
            if not colon:
                continue
            key = key.strip(BLANKS).lower()
            if key == b"satellite_name":
                lead = len(line) - len(line.lstrip(BLANKS))
                a = lead + text.index(b":") + 1
                a += len(value) - len(value.lstrip(BLANKS))
                start, end, seen = here + a, here + a + len(value.strip(BLANKS)), 1
            elif key == b"center_frequency":
                v = number(value.strip(BLANKS))
                if v == "refused":
                    return zeros(3)
                if v is not None:
                    centre = v
            continue
        fields = text.split(b",")
        if len(fields) < 2:
            continue
        t, v = moment(fields[0]), number(fields[1])
        if t is None or v is None:
            continue
        if not LOW <= t < HIGH:
            return zeros(4)
        if v == "refused":
            return zeros(3)
        samples.append((t, v))
    if len(samples) > 4096:
        return zeros(5)
    if len(samples) > places:
        return zeros(21)
    return 0, start, end, seen, centre, len(samples), samples


def bits(v):
    return 0x7FF8000000000000 if v != v else struct.unpack("<Q", struct.pack("<d", v))[0]


def entry(data, places=4096, listed=None):
    """A file read into arrays of so many places; of its samples the answer lists the first so many."""
    r = read(data, places)
    samples = r[6] if listed is None else r[6][:listed]
    asked = [places, len(data)] + [int.from_bytes(data[k:k + 8].ljust(8, b"\0"), "big") for k in range(0, len(data), 8)]
    answer = [r[0], r[1], r[2], r[3], bits(r[4]), r[5], len(samples)] + [t % 2**64 for t, v in samples] + [len(samples)] + [bits(v) for t, v in samples]
    print("pass_rule", *["%016x" % n for n in asked], "=", *["%016x" % n for n in answer])


GOOD = b"2026-06-12T00:00:00Z,150800000.5"


def files():
    yield b""
    yield b"\n"
    yield b"#Satellite_Name: HERD-1\nutc_timestamp,f\n" + GOOD + b"\n"
    # names, keys and the blanks around them
    for head in (b"#satellite_name:", b"# SATELLITE_NAME : A B ", b"\t #satellite_name:\x0bX\x0c\x0d", b"#satellite_name", b"#satellite_name A",
                 b"#satellite_name::A", b"#satellite name: A", b"#satellite_name: A\n#satellite_name: B", b"##satellite_name: A", b"#satellite_name: \x1cA\x1f",
                 b"#: A", b"#", b"#satellite_name\x00: A", b"#center_frequency: 1\n#satellite_name: A:B:C", b"#satellite_name:A\r\n#Satellite_Name:A\r\n"):
        yield head
        yield head + b"\r\n" + GOOD
    # centres: the last good one wins
    for value in (b"1", b"150.8e6", b"x\n#center_frequency: 7", b"7\n#center_frequency: x", b"inf", b"-NaN", b"", b"1e31", b"1e005", b"0" * 20,
                  b"12345678901234567890", b"1234567890123456789", b"0.1234567890123456789", b"1e-30", b"1e30", b"1e-31", b"+.5e+1", b"1e1000"):
        yield b"#CENTER_FREQUENCY:" + value + b"\n" + GOOD
    # numbers of a sample
    for value in (b"inf", b"+Infinity", b"-nan", b"NAN", b"1.", b".5", b".", b"", b"1e", b"1e+", b"infin", b" 1", b"1 ", b"+1", b"-0", b"--1", b"1_0", b"0x1", b"1e2.5",
                  b"4.35", b"0.1", b"9007199254740993", b"9007199254740992.5", b"5e-1", b"1.7976931348623157e30", b"123456789012345678e-30", b"1E-30", b"1,2", b"1,x", b"e5", b".e5",
                  b"1.5e30", b"1.5e31", b"00000000000000000001", b"0000000000000000001", b"nan0", b"infinity1", b"2.5\x00"):
        yield b"2026-06-12T00:00:00Z," + value + b"\n"
    # times
    for time in (b"1970-01-01T00:00:00Z", b"1969-12-31T23:59:59.999999999Z", b"1957-01-01T00:00:00Z", b"1956-12-31T23:59:59.999999999Z", b"2056-12-31T23:59:59.999999999Z",
                 b"2057-01-01T00:00:00Z", b"1957-01-01T00:59:00+01:00", b"1957-01-01T01:00:00+01:00", b"2057-01-01T00:30:00+00:31", b"2056-12-31T23:30:00-00:30",
                 b"0000-01-01T00:00:00Z", b"9999-12-31T23:59:59Z", b"0000-01-01T00:00:00+23:59", b"9999-12-31T23:59:59-23:59", b"2024-02-29T12:00:00Z", b"2023-02-29T12:00:00Z",
                 b"2000-02-29T12:00:00Z", b"1900-02-29T12:00:00Z", b"2026-02-30T00:00:00Z", b"2026-04-31T00:00:00Z", b"2026-00-10T00:00:00Z", b"2026-13-10T00:00:00Z",
                 b"2026-06-00T00:00:00Z", b"2026-06-12t00:00:00z", b"2026-06-12 00:00:00Z", b"2026-06-12T00:00:00", b"2026-06-12T00:00:00UTC", b"2026-06-12T00:00:60Z",
                 b"2016-12-31T23:59:60Z", b"2026-06-12T24:00:00Z", b"2026-06-12T00:60:00Z", b"2026-06-12T00:00:00.Z", b"2026-06-12T00:00:00.1Z", b"2026-06-12T00:00:00.1234567899Z",
                 b"2026-06-12T00:00:00.000000000999Z", b"2026-06-12T00:00:00+24:00", b"2026-06-12T00:00:00+23:59", b"2026-06-12T00:00:00+23:60", b"2026-06-12T00:00:00+0130",
                 b"2026-06-12T00:00:00+01", b"2026-06-12T00:00:00+1:30", b"2026-06-12T00:00:00-00:00", b"+2026-06-12T00:00:00Z", b"02026-06-12T00:00:00Z", b"026-06-12T00:00:00Z",
                 b"2026-6-12T00:00:00Z", b"2026-06-12T00:00:00Z ", b"2026-06-12T00:00:00ZZ", b"2026/06/12T00:00:00Z", b"2026-06-12T00:00:0aZ", b"2026-06-12T00:00:00,5Z"):
        yield time + b",1\n" + GOOD
    # two faults in one line, and the first offending line
    long4 = b"2057-01-01T00:00:00Z,1," + b"x" * 240
    for line in (b"\x80", b"\xff" * 300, b"x" * 256, b"x" * 257, b"x" * 256 + b"\r", b"2057-01-01T00:00:00Z,1e31", b"2026-06-12T00:00:00Z,1e31", b"2057-01-01T00:00:00Z,x",
                 b"x,1e31", long4, long4 + b"\x80", b"2026-06-12T00:00:00Z,1e31," + b"x" * 240, b"2057-01-01T00:00:00Z,1,\x80", b"2026-06-12T00:00:00Z,1e31,\x80", b"\xef\xbb\xbf" + GOOD,
                 b"2026-06-12T00:00:60Z,1e31", b"#center_frequency: 1e31 \x80", b"#center_frequency: 1e31" + b" " * 300, b"#satellite_name: \x80", b"#" + b"a" * 255, b"#" + b"a" * 256):
        yield line
        yield GOOD + b"\n" + line + b"\r\n" + GOOD + b"\n"
        yield b"2057-01-01T00:00:00Z,1\n" + line
        yield line + b"\n2057-01-01T00:00:00Z,1"
    # line ends
    for data in (b"x" * 256 + b"\r\n", b"x" * 256 + b"\n", b"x" * 256 + b"\r", b"x" * 255 + b"\r", b"x" * 256 + b"\r\r\n", b"\r\n\r\n" + GOOD, GOOD + b"\r", b"\r" + GOOD, GOOD + b"\r" + GOOD,
                 b" \t" + GOOD + b"\x0b\x0c\r\n", GOOD + b"\n\n\n" + GOOD + b"\r\n", b"\x1c" + GOOD, GOOD + b"\x1f", GOOD + b"\n\r", GOOD + b"\x00"):
        yield data


def main():
    for data in files():
        entry(data)
    line = b"1970-01-01T00:00:00Z,1\n"
    for data, places, listed in ((line * 4096, 4096, 2), (line * 4097 + b"\x80", 4096, 0), (line * 5, 5, 5), (line * 5, 4, 0), (b"", 0, 0), (line, 0, 0),
                                 (line * 2 + b"2057-01-01T00:00:00Z,1", 1, 0)):
        entry(data, places, listed)


main()
