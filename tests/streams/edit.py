#!/usr/bin/env python3
"""Edits of streams, for ./make.

edit.py set FROM TO OFFSET HEX         other bytes at an offset
edit.py zeros FROM TO PICTURE COUNT    zero bytes after a picture's slices (pictures from 0)
edit.py cut FROM TO PICTURE COUNT      only what stands before COUNT bytes of a picture
edit.py fields FROM TO                 intra frames become fields: half the frame rate, twice the height
"""
import re
import sys


def codes(s):
    return [(m.start(), s[m.start() + 3]) for m in re.finditer(rb"\x00\x00\x01.", s, re.S)]


def pictures(s):
    """Offset of each picture's start code, and of the first code after its slices."""
    found, of = [], codes(s)
    for i, (at, code) in enumerate(of):
        if code == 0:
            j = i + 1
            while j < len(of) and not 1 <= of[j][1] <= 0xAF:
                j += 1
            while j < len(of) and 1 <= of[j][1] <= 0xAF:
                j += 1
            found.append((at, of[j][0] if j < len(of) else len(s)))
    return found


def fields(s):
    s, second = bytearray(s), False
    after = 0
    for at, code in codes(bytes(s)):
        if code == 0:
            if second:
                s[after:at] = bytes(at - after)  # the headers between two fields of a frame: stuffing
            after = next(end for start, end in pictures(bytes(s)) if start == at)
        elif code == 0xB3:
            height = ((s[at + 5] & 15) << 8 | s[at + 6]) * 2
            s[at + 5] = s[at + 5] & 0xF0 | height >> 8
            s[at + 6] = height & 255
            assert s[at + 7] & 15 == 6
            s[at + 7] = s[at + 7] & 0xF0 | 3  # 50 to 25 frames
        elif code == 0xB5 and s[at + 4] >> 4 == 1:
            s[at + 5] &= ~8  # no progressive sequence
        elif code == 0xB5 and s[at + 4] >> 4 == 8:
            s[at + 6] = s[at + 6] & ~3 | (2 if second else 1)  # bottom or top field
            s[at + 7] &= ~0xC1  # top_field_first, frame_pred_frame_dct, chroma_420_type
            s[at + 8] &= ~0x80  # progressive_frame
            second = not second
    return bytes(s)


def main(what, source, to, *more):
    s = open(source, "rb").read()
    if what == "set":
        at, new = int(more[0]), bytes.fromhex(more[1])
        s = s[:at] + new + s[at + len(new):]
    elif what == "zeros":
        at = pictures(s)[int(more[0])][1]
        s = s[:at] + bytes(int(more[1])) + s[at:]
    elif what == "cut":
        s = s[: pictures(s)[int(more[0])][0] + int(more[1])]
    elif what == "fields":
        s = fields(s)
    open(to, "wb").write(s)


main(*sys.argv[1:])
