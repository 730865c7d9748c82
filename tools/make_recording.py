#!/usr/bin/env python3
"""Writes crates/frames/stdin: a recording with every kind of line that a listing has.

Its expected listing, crates/frames/stdout, is written by hand from the comments below.
"""
import pathlib
import struct

DATA, HEADERS, PRIORITY, RST_STREAM, SETTINGS = 0x0, 0x1, 0x2, 0x3, 0x4
PING, GOAWAY, WINDOW_UPDATE, PRIORITY_UPDATE, UNKNOWN = 0x6, 0x7, 0x8, 0x10, 0xFF

TOP = 0x8000_0000


def frame(kind, flags, stream, payload=b"", length=None):
    """A frame, with the payload's own length unless another is told."""
    if length is None:
        length = len(payload)
    return struct.pack(">I", length)[1:] + struct.pack(">BBI", kind, flags, stream) + payload


def number(n):
    return struct.pack(">I", n)


def pairs(*settings):
    return b"".join(struct.pack(">HI", identifier, value) for identifier, value in settings)


FRAMES = [
    # 0 to 4: SETTINGS, with four pairs, none, and acknowledged; other flags and the reserved bit are ignored
    frame(SETTINGS, 0x0, 0, pairs((1, 4096), (3, 100), (4, 65535), (65535, 4294967295))),
    frame(SETTINGS, 0x0, 0),
    frame(SETTINGS, 0x1, 0),
    frame(SETTINGS, 0xFF, 0),
    frame(SETTINGS, 0xFE, TOP, pairs((2, 0))),
    # 5 to 8: WINDOW_UPDATE, on the connection and on streams; the top bits are reserved
    frame(WINDOW_UPDATE, 0, 0, number(65535)),
    frame(WINDOW_UPDATE, 0, 1, number(TOP + 1)),
    frame(WINDOW_UPDATE, 0, 0xFFFF_FFFF, number(0x7FFF_FFFF)),
    frame(WINDOW_UPDATE, 0, 3, number(0)),
    # 9 and 10: RST_STREAM
    frame(RST_STREAM, 0, 1, number(8)),
    frame(RST_STREAM, 0, TOP + 5, number(0xFFFF_FFFF)),
    # 11 to 14: PRIORITY_UPDATE; an empty value and one with an urgency above 7 tell the default
    frame(PRIORITY_UPDATE, 0, 0, number(1) + b"u=0, i"),
    frame(PRIORITY_UPDATE, 0, 0, number(TOP + 3)),
    frame(PRIORITY_UPDATE, 0, TOP, number(5) + b"u=7"),
    frame(PRIORITY_UPDATE, 0, 0, number(7) + b"i=?0, u=8"),
    # 15 and 16: a value that breaks off, and one of 257 octets
    frame(PRIORITY_UPDATE, 0, 0, number(9) + b"u="),
    frame(PRIORITY_UPDATE, 0, 0, number(11) + b"u=1" + b" " * 254),
    # 17 to 21: DATA, with and without END_STREAM, empty and not, and as long as a frame may be
    frame(DATA, 0x0, 1, b"hello"),
    frame(DATA, 0x1, 1),
    frame(DATA, 0x9, 3, b"\x02ab\x00"),
    frame(DATA, 0x8, TOP + 7),
    frame(DATA, 0x0, 5, b"x" * 16384),
    # 22 to 26: types that are passed over
    frame(PING, 0, 0, b"12345678"),
    frame(HEADERS, 0x4, 1, b"\x82\x84\x86"),
    frame(GOAWAY, 0, 0, number(1) + number(0)),
    frame(UNKNOWN, 0xFF, 0x7FFF_FFFF, b"?"),
    frame(PRIORITY, 0, TOP + 3, number(1) + b"\x0f"),
    # 27 to 36: fault 3, of each type that has a length of its own, and past 16,384 octets
    frame(SETTINGS, 0, 0, b"\x00" * 5),
    frame(SETTINGS, 0x1, 0, pairs((1, 1))),
    frame(WINDOW_UPDATE, 0, 1, b"\x00" * 3),
    frame(WINDOW_UPDATE, 0, 0, b"\x00" * 5),
    frame(RST_STREAM, 0, 1, b"\x00" * 3),
    frame(RST_STREAM, 0, 1),
    frame(PRIORITY_UPDATE, 0, 0, b"\x00" * 3),
    frame(DATA, 0x1, 1, b"x" * 16385),
    frame(UNKNOWN, 0, 0, b"?" * 16385),
    frame(SETTINGS, 0, 0, b"\x00" * 16386),
    # 37 to 40: fault 4, on a stream, also where the length is wrong as well
    frame(SETTINGS, 0, 1, pairs((1, 1))),
    frame(SETTINGS, 0x1, 2, pairs((1, 1))),
    frame(PRIORITY_UPDATE, 0, 1, number(1) + b"u=1"),
    frame(PRIORITY_UPDATE, 0, 3, b"\x00\x00"),
    # 41: fault 2, where the recording stops inside a frame
    frame(DATA, 0, 1, b"end", length=10),
]

if __name__ == "__main__":
    root = pathlib.Path(__file__).resolve().parent.parent
    (root / "crates" / "frames" / "stdin").write_bytes(b"".join(FRAMES))
