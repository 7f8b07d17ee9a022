#!/usr/bin/env python3
"""Makes a stream of field pictures out of an intra-only stream of frame pictures of half the height.

fieldpics.py IN OUT. The slices of an intra field picture have the same syntax as those of an intra frame picture with
frame_pred_frame_dct 1, so that only headers need other bits. No packaged encoder was found that makes field pictures.
"""
import sys


def set_bits(data, start, count, value):
    """Puts a number into the bits from start on, the first bit of data being 0."""
    for i in range(count):
        at, shift = divmod(start + i, 8)
        bit = value >> (count - 1 - i) & 1
        data[at] = data[at] & ~(0x80 >> shift) | (0x80 >> shift) * bit


def get_bits(data, start, count):
    value = 0
    for i in range(start, start + count):
        value = value << 1 | data[i // 8] >> (7 - i % 8) & 1
    return value


def pieces(data):
    """The stream cut before each start code."""
    at = data.find(b"\0\0\1")
    while at >= 0:
        after = data.find(b"\0\0\1", at + 3)
        yield bytearray(data[at:after] if after >= 0 else data[at:])
        at = after


def main():
    data = open(sys.argv[1], "rb").read()
    out = bytearray()
    picture = -1
    for piece in pieces(data):
        code = piece[3]
        second = picture % 2 == 0  # what follows belongs to a bottom field until its picture header has passed
        if code == 0xB3:
            if second:
                continue
            set_bits(piece, 32 + 12, 12, 2 * get_bits(piece, 32 + 12, 12))  # vertical_size
        elif code == 0xB8 and second:
            continue
        elif code == 0xB5 and piece[4] >> 4 == 1:  # sequence extension
            if second:
                continue
            set_bits(piece, 32 + 12, 1, 0)  # progressive_sequence
        elif code == 0x00:
            picture += 1
            set_bits(piece, 32, 10, 0)  # temporal_reference: each frame is a group of its own
        elif code == 0xB5 and piece[4] >> 4 == 8:  # picture coding extension
            set_bits(piece, 32 + 22, 2, 1 + picture % 2)  # picture_structure: top, then bottom
            set_bits(piece, 32 + 24, 1, 0)  # top_field_first is 0 in field pictures
            set_bits(piece, 32 + 25, 1, 0)  # frame_pred_frame_dct
            set_bits(piece, 32 + 31, 1, 0)  # chroma_420_type
            set_bits(piece, 32 + 32, 1, 0)  # progressive_frame
        out += piece
    open(sys.argv[2], "wb").write(out)


main()
