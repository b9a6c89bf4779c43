"""Shows a frame: an .astc file as a PNG in which the bad blocks are outlined, and a line of text for each of them.

    python3 -m stallbrook.show [--scale N] FRAME.astc OUT.png

A bad block is magenta, and so may be a ball that was filmed: the outline, in yellow, tells the one from the other. It covers texels of bad blocks only;
all others are as they are decoded in kind srgb8, in which an HDR block is bad. The output is a line for each bad block, with its index in raster order,
the column and row of its first texel, and its fault; then a line that counts them:

    block 37 at 30,6: fault 11, the block mode is reserved
    1 of 768 blocks is bad

The status is 0 where all blocks are sound, 3 where some are bad, and 2 where no picture was written: the file is refused or cannot be read, the picture
cannot be written, or the command is wrong. 1 is Python's own, where the library is not found.
"""

from __future__ import annotations

import argparse
import struct
import sys
import zlib
from typing import Optional, Sequence

import stallbrook

MARK = bytes([255, 255, 0, 255])
"""The outline's colour."""


def marked(picture: stallbrook.Picture) -> bytes:
    """A picture's texels in kind srgb8, four bytes each, rows first; those at the edge of a bad block are MARK.

    >>> sound = bytes([0x42, 0, 0, 0xFE, 1, 0, 0, 0, 0, 0, 0, 0, 0, 0, 0, 0x80])
    >>> texels = marked(stallbrook.Picture(sound + bytes(16), "4x4", 8, 4))
    >>> [list(texels[at : at + 4]) for at in (0, 4 * 4, 4 * (8 + 5))]  # sound; edge and inside of the bad block
    [[84, 84, 84, 255], [255, 255, 0, 255], [255, 0, 255, 255]]
    """
    texels = bytearray(memoryview(picture.decode("srgb8").texels).tobytes())
    columns, rows = picture.footprint.sides
    for index in picture.bad_blocks("srgb8"):
        row, column = divmod(index, picture.across)
        left, top = column * columns, row * rows
        right, bottom = min(left + columns, picture.width) - 1, min(top + rows, picture.height) - 1
        for y in range(top, bottom + 1):
            for x in range(left, right + 1) if y in (top, bottom) else (left, right):
                at = 4 * (y * picture.width + x)
                texels[at : at + 4] = MARK
    return bytes(texels)


def png(texels: bytes, width: int, height: int, scale: int = 1) -> bytes:
    """The PNG file of texels of four sRGB bytes each, rows first, every one a square of `scale` by `scale`; without alpha where all are opaque.

    >>> png(bytes([84, 84, 84, 255]), 1, 1)[:8]
    b'\\x89PNG\\r\\n\\x1a\\n'
    """
    channels = 3 if texels[3::4].count(255) == width * height else 4
    packed, data = zlib.compressobj(9), []
    for y in range(height):
        texel_row, row = texels[4 * width * y : 4 * width * (y + 1)], bytearray(channels * width * scale)
        for channel in range(channels):
            for step in range(scale):
                row[channels * step + channel :: channels * scale] = texel_row[channel::4]
        differences = bytes((here - left) & 255 for here, left in zip(row, bytes(channels) + row))
        data.append(packed.compress((b"\1" + differences) * scale))  # PNG's filter 1: what a pixel differs by from the one to its left
    data.append(packed.flush())
    head = struct.pack(">2I5B", width * scale, height * scale, 8, 2 if channels == 3 else 6, 0, 0, 0)
    return b"\x89PNG\r\n\x1a\n" + b"".join((_chunk(b"IHDR", head), _chunk(b"sRGB", b"\0"), _chunk(b"IDAT", b"".join(data)), _chunk(b"IEND", b"")))


def _chunk(name: bytes, data: bytes) -> bytes:
    return struct.pack(">I", len(data)) + name + data + struct.pack(">I", zlib.crc32(name + data))


def main(words: Optional[Sequence[str]] = None) -> int:
    """The command, with its words; answers its status.

    >>> main(["nowhere.astc", "nowhere.png"])
    2
    """
    options = argparse.ArgumentParser(prog="python3 -m stallbrook.show", description=(__doc__ or "").split("\n\n")[0], epilog=(__doc__ or "").split("\n\n")[-1])
    options.add_argument("frame", metavar="FRAME.astc", help="the frame")
    options.add_argument("out", metavar="OUT.png", help="the picture that is written")
    options.add_argument("--scale", metavar="N", type=int, choices=range(1, 17), default=1, help="show each texel as N by N, 1 to 16")
    given = options.parse_args(words)
    if not given.out.lower().endswith(".png"):
        options.error(f"{given.out}: the picture's name has to end in .png")
    at_work = given.frame
    try:
        picture = stallbrook.open(given.frame)
        shown, bad = png(marked(picture), picture.width, picture.height, given.scale), picture.bad_blocks("srgb8")
        at_work = given.out
        with open(given.out, "wb") as file:
            file.write(shown)
    except stallbrook.Refused as refused:
        print(f"{options.prog}: {at_work}: refused {refused.number}, {refused.text}", file=sys.stderr)
        return 2
    except OSError as error:
        print(f"{options.prog}: {at_work}: {error.strerror}", file=sys.stderr)
        return 2
    columns, rows = picture.footprint.sides
    for index, fault in bad.items():
        print(f"block {index} at {index % picture.across * columns},{index // picture.across * rows}: fault {fault.number}, {fault}")
    print(f"{len(bad)} of {picture.across * picture.down} blocks {'is' if len(bad) == 1 else 'are'} bad")
    return 3 if bad else 0


if __name__ == "__main__":
    sys.exit(main())
