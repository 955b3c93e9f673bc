#!/usr/bin/env python3
"""The answer in film mode of a whole MPEG-2 stream, in the lines of vbvcheck: film.py [--plain] [--variable] FILE.

With --plain repeated fields are not counted; with --variable it is the answer at a variable rate. A model apart from the library and
the tools, after paper 02, requests 05 and 06, in fractions. Headers are taken to be sound."""
import sys
from fractions import Fraction

RATES = {1: Fraction(24000, 1001), 2: 24, 3: 25, 4: Fraction(30000, 1001), 5: 30, 6: 50, 7: Fraction(60000, 1001), 8: 60}


def bits(data, byte, first, count):
    """A field: its first bit, counted from a byte."""
    value = int.from_bytes(data[byte:byte + (first + count + 7) // 8], "big")
    return value >> -(first + count) % 8 & (1 << count) - 1


def start_codes(data):
    at = data.find(b"\0\0\1")
    while 0 <= at and at + 4 <= len(data):
        yield at, data[at + 3]
        at = data.find(b"\0\0\1", at + 4)


def find_pictures(data, codes):
    """(start code, end), as paper 01 walks: past what comes before the first slice, past the slices."""
    found, n = [], 0
    while n < len(codes):
        at, code = codes[n]
        n += 1
        if code != 0:
            continue
        while n < len(codes) and not 1 <= codes[n][1] <= 0xAF:
            n += 1
        while n < len(codes) and 1 <= codes[n][1] <= 0xAF:
            n += 1
        end = len(data) if n == len(codes) else codes[n][0] + (4 if codes[n][1] == 0xB7 else 0)
        found.append((at, end))
    return found


class Picture:
    def __init__(self, data, at, end):
        extension = data.find(b"\0\0\1\xb5", at + 4)
        self.position, self.end = 8 * (at + 4), 8 * end
        self.anchor = bits(data, at, 42, 3) != 3
        self.delay = bits(data, at, 45, 16)
        self.field = bits(data, extension, 54, 2) != 3
        self.top, self.repeat = bits(data, extension, 56, 1), bits(data, extension, 62, 1)


def pair_up(pictures):
    """Frames, pairs of fields, and fields left over, each a list of one or two."""
    groups = []
    for p in pictures:
        if p.field and groups and len(groups[-1]) == 1 and groups[-1][0].field:
            groups[-1].append(p)
        else:
            groups.append([p])
    return groups


def periods(pictures, progressive, low_delay):
    told, anchor = [], (0, 0)
    for group in pair_up(pictures):
        first = group[0]
        if first.field:
            second_waits = first.anchor and anchor[0] and not progressive and not low_delay
            told += [1, 2 if second_waits else 1][:len(group)]
            shown = (0, 0)
        else:
            shown = (first.repeat, first.top)
            repeat, top = anchor if first.anchor and not low_delay else shown
            told.append((2, 2, 4, 6)[2 * repeat + top] if progressive else 2 + repeat)
        if first.anchor:
            anchor = shown
    return told


def check(pictures, lasting, rate, buffer, frames):
    """At a constant rate."""
    delivered, before, records = pictures[0].position + Fraction(pictures[0].delay * rate, 90000), 0, []
    for n, (p, count) in enumerate(zip(pictures, lasting)):
        expected = ((delivered - p.position) * 180000 / rate + 1) // 2
        number = (7 if p.position > delivered else 8 if expected > 0xFFFE else 11 if abs(expected - p.delay) > 1
                  else 9 if delivered - before > buffer else 10 if p.end > delivered else 0)
        if number:
            return (number, n, p.delay, expected) if number >= 9 else (number, 0, 0, 0), []
        records.append((p.delay, expected, p.end - before, (delivered - before) // 1, count))
        delivered, before = delivered + rate * count / frames / 2, p.end
    return None, records


def check_variable(pictures, lasting, rate, buffer, frames):
    """By what the buffer holds: full, less each picture, and filled again up to full."""
    held, before, records = Fraction(buffer), 0, []
    for n, (p, count) in enumerate(zip(pictures, lasting)):
        data_bits = p.end - before
        if data_bits > held:
            return (10, n, 0xFFFF, 0xFFFF), []
        records.append((0xFFFF, 0xFFFF, data_bits, held // 1, count))
        held, before = min(held - data_bits + rate * count / frames / 2, Fraction(buffer)), p.end
    return None, records


def judge(data, film, variable):
    codes = list(start_codes(data))
    header = next(at for at, code in codes if code == 0xB3)
    extension = next(at for at, code in codes if code == 0xB5 and at > header)
    rate = 400 * (bits(data, extension, 51, 12) << 18 | bits(data, header, 64, 18))
    buffer = 16384 * (bits(data, extension, 64, 8) << 10 | bits(data, header, 83, 10))
    frames = RATES[bits(data, header, 60, 4)] * Fraction(bits(data, extension, 73, 2) + 1, bits(data, extension, 75, 5) + 1)
    pictures = [Picture(data, at, end) for at, end in find_pictures(data, codes)]
    if variable and any(p.delay != 0xFFFF for p in pictures):
        return (25, 0, 0, 0), []
    if not variable and pictures[0].delay == 0xFFFF:
        return (5, 0, 0, 0), []
    lasting = periods(pictures, bits(data, extension, 44, 1), bits(data, extension, 72, 1)) if film else \
        [1 if p.field else 2 for p in pictures]
    refusal, records = (check_variable if variable else check)(pictures, lasting, rate, buffer, frames)
    if refusal:
        return refusal, []
    after = min(held - data_bits for _, _, data_bits, held, _ in records)
    return (rate, buffer, len(records), after, max(held for _, _, _, held, _ in records)), records


words = sys.argv[1:-1]
answer, listed = judge(open(sys.argv[-1], "rb").read(), "--plain" not in words, "--variable" in words)
print("bit_rate buffer_bits pictures min_after max_before" if listed else "refused picture coded expected")
print(*answer)
if listed:
    print("delay expected data_bits occupancy_before periods")
    for record in listed:
        print(*record)
