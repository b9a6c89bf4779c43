"""The command stallbrook.show: the pixels of its PNG, as a reader of this test has them, what it tells, its statuses, and README's picture. Run by
tests/python/run."""

import contextlib
import doctest
import io
import pathlib
import struct
import subprocess
import sys
import tempfile
import unittest
import unittest.mock
import zlib

import stallbrook
import stallbrook.show
from stallbrook import Picture

SOUND = bytes([0x42, 0, 0, 0xFE, 1, 0, 0, 0, 0, 0, 0, 0, 0, 0, 0, 0x80])
CLEAR = bytes([0xFC, 0xFD] + [0xFF] * 6 + [0x11, 0x11, 0x22, 0x22, 0x33, 0x33, 0x44, 0x44])  # of one colour, (17, 34, 51), with alpha 68
ROOT = pathlib.Path(__file__).resolve().parents[3]
FRAME, SHOWN, TOLD = ROOT / "docs/ball.astc", ROOT / "docs/ball.png", ROOT / "tests/python/show.out"
BAD = {39: 11, 125: 13, 158: 14, 212: 20, 366: 19, 401: 16}  # as damaged by outside/frame/make_frame, whose numbers are the second decoder's
MAGENTA, YELLOW = (255, 0, 255), (255, 255, 0)


def load_tests(loader, tests, ignore):
    tests.addTests(doctest.DocTestSuite(stallbrook.show))
    return tests


def pixels(file):
    """Rows of pixels of a PNG file, by the PNG document: chunks with their checksums, eight bits, RGB or RGBA, the five filters."""
    if file[:8] != b"\x89PNG\r\n\x1a\n":
        raise ValueError("no PNG")
    at, chunks = 8, []
    while at < len(file):
        length, name = struct.unpack(">I4s", file[at : at + 8])
        data = file[at + 8 : at + 8 + length]
        if struct.pack(">I", zlib.crc32(name + data)) != file[at + 8 + length : at + 12 + length]:
            raise ValueError("a chunk is damaged")
        chunks.append((name, data))
        at += 12 + length
    if chunks[0][0] != b"IHDR" or chunks[-1] != (b"IEND", b""):
        raise ValueError("the order of chunks is wrong")
    width, height, bits, sort, *rest = struct.unpack(">2I5B", chunks[0][1])
    if (bits, rest) != (8, [0, 0, 0]):
        raise ValueError("another sort of PNG")
    channels = {2: 3, 6: 4}[sort]
    stored = zlib.decompress(b"".join(data for name, data in chunks if name == b"IDAT"))
    size, above, rows = channels * width, bytes(channels * width), []
    if len(stored) != height * (size + 1):
        raise ValueError("too few or too many rows")
    for start in range(0, len(stored), size + 1):
        kind, row = stored[start], bytearray(stored[start + 1 : start + 1 + size])
        for i in range(size):
            left, up, corner = (row[i - channels], above[i], above[i - channels]) if i >= channels else (0, above[i], 0)
            guess = left + up - corner
            paeth = min((left, up, corner), key=lambda one: abs(guess - one))
            row[i] = (row[i] + (0, left, up, (left + up) // 2, paeth)[kind]) & 255
        rows.append([tuple(row[i : i + channels]) for i in range(0, size, channels)])
        above = row
    return rows


class Command(unittest.TestCase):
    def setUp(self):
        room = tempfile.TemporaryDirectory()
        self.addCleanup(room.cleanup)
        self.frame, self.out = pathlib.Path(room.name) / "frame.astc", pathlib.Path(room.name) / "out.png"

    def show(self, *words):
        """Status, output and errors of the command."""
        with contextlib.redirect_stdout(io.StringIO()) as out, contextlib.redirect_stderr(io.StringIO()) as errors:
            try:
                status = stallbrook.show.main([str(word) for word in words])
            except SystemExit as end:
                status = end.code
        return status, out.getvalue(), errors.getvalue()

    def shown(self, picture, *words):
        """The pixels of a picture."""
        self.frame.write_bytes(picture.to_file())
        self.show(*words, self.frame, self.out)
        return pixels(self.out.read_bytes())

    def trouble(self, told, *words):
        """The command ends with 2, says this, and writes nothing."""
        before = self.out.read_bytes() if self.out.is_file() else None
        status, out, errors = self.show(*words)
        self.assertEqual((status, out), (2, ""))
        self.assertIn(told, errors)
        self.assertNotIn("Traceback", errors)
        self.assertEqual(self.out.read_bytes() if self.out.is_file() else None, before)

    def test_readmes_picture(self):
        words = [sys.executable, "-m", "stallbrook.show", "--scale", "3", FRAME, self.out]
        ended = subprocess.run(words, capture_output=True, text=True)
        self.assertEqual((ended.returncode, ended.stdout, ended.stderr), (3, TOLD.read_text(), ""))
        rows, stored = pixels(self.out.read_bytes()), pixels(SHOWN.read_bytes())
        self.assertEqual((len(rows), len(rows[0])), (len(stored), len(stored[0])))
        differ = [(x, y) for y, row in enumerate(rows) if row != stored[y] for x, pixel in enumerate(row) if pixel != stored[y][x]]
        self.assertEqual(differ[:9], [])

    def test_readmes_bad_blocks(self):
        picture = stallbrook.open(FRAME)
        self.assertEqual({index: fault.number for index, fault in picture.bad_blocks("srgb8").items()}, BAD)
        self.assertEqual([int(line.split()[1]) for line in TOLD.read_text().splitlines()[:-1]], list(BAD))
        # magenta by damage is outlined, and of the ball a sound block that is magenta all over is not; a block is 24 pixels wide
        rows = pixels(SHOWN.read_bytes())
        for index, edge in [(131, MAGENTA), *((index, YELLOW) for index in BAD)]:
            x, y = index % picture.across * 24, index // picture.across * 24
            ring, inside = set(), set()
            for i in range(24):
                for j in range(24):
                    (ring if min(i, j, 23 - i, 23 - j) < 3 else inside).add(rows[y + j][x + i])
            self.assertEqual((ring, inside), ({edge}, {MAGENTA}), index)

    def test_every_pixel(self):
        # blocks of 5x4, three across and three down, the last ones cut to one column and two rows; bad are one inside, and those cut
        blocks = [SOUND] * 9
        for index in (1, 5, 6, 8):
            blocks[index] = bytes(16)
        picture = Picture(b"".join(blocks), "5x4", 11, 10)
        decoded = picture.decode("srgb8").texels.tolist()
        edges = {(x, y) for x in range(5, 10) for y in range(4) if x in (5, 9) or y in (0, 3)}
        edges |= {(10, y) for y in range(4, 8)} | {(x, y) for x in range(5) for y in (8, 9)} | {(10, 8), (10, 9)}
        for scale in (1, 2, 5):
            rows = self.shown(picture, "--scale", scale)
            self.assertEqual((len(rows), len(rows[0])), (10 * scale, 11 * scale))
            for y, row in enumerate(rows):
                for x, pixel in enumerate(row):
                    place = x // scale, y // scale
                    self.assertEqual(pixel, YELLOW if place in edges else tuple(decoded[place[1]][place[0]][:3]), (scale, x, y))
        self.assertEqual(self.shown(picture)[2][7], MAGENTA)

    def test_alpha(self):
        self.assertEqual(self.shown(Picture(CLEAR, "4x4", 2, 1)), [[(17, 34, 51, 68)] * 2])
        rows = self.shown(Picture(CLEAR + bytes(16), "4x4", 7, 3))
        self.assertEqual(rows[1], [(17, 34, 51, 68)] * 4 + [(255, 255, 0, 255), (255, 0, 255, 255), (255, 255, 0, 255)])

    def test_told(self):
        self.frame.write_bytes(Picture(SOUND * 6, "6x5", 13, 9).to_file())
        self.assertEqual(self.show(self.frame, self.out), (0, "0 of 6 blocks are bad\n", ""))
        self.frame.write_bytes(Picture(SOUND * 4 + bytes(16) + SOUND, "6x5", 13, 9).to_file())
        told = "block 4 at 6,5: fault 11, the block mode is reserved\n1 of 6 blocks is bad\n"
        self.assertEqual(self.show(self.frame, self.out), (3, told, ""))
        hdr = bytes([0xFC] + [0xFF] * 7 + [0, 0x3C] * 4)
        self.frame.write_bytes(Picture(hdr * 2, "4x4", 8, 4).to_file())
        status, out, _ = self.show(self.frame, self.out)
        self.assertEqual((status, out.splitlines()[1:]), (3, ["block 1 at 4,0: fault 13, an HDR void extent, which half floats alone show", "2 of 2 blocks are bad"]))

    def test_refused_files(self):
        file = Picture(SOUND, "4x4", 3, 2).to_file()
        for number, data in ((41, file[:15]), (42, b"\x89PNG\r\n\x1a\n" + file[8:]), (43, file[:4] + b"\7" + file[5:]), (3, file[:7] + bytes(3) + file[10:]), (4, file[:-1])):
            self.frame.write_bytes(data)
            self.trouble(f"{self.frame}: refused {number}, {stallbrook.Fault(number).text}\n", self.frame, self.out)
        self.out.write_bytes(b"as it was")
        self.trouble("refused 4", self.frame, self.out)

    def test_other_trouble(self):
        self.trouble(f"{self.frame}: No such file or directory", self.frame, self.out)
        self.trouble(f"{self.frame.parent}: Is a directory", self.frame.parent, self.out)
        self.frame.write_bytes(Picture(SOUND, "4x4", 3, 2).to_file())
        kept = self.frame.read_bytes()
        self.trouble("the picture's name has to end in .png", self.frame, self.frame)
        self.assertEqual(self.frame.read_bytes(), kept)
        away = self.frame.parent / "away" / "out.png"
        self.trouble(f"{away}: No such file or directory", self.frame, away)
        for scale in ("0", "17", "-1", "two"):
            self.trouble("argument --scale", "--scale", scale, self.frame, self.out)
        self.trouble("arguments are required: OUT.png", self.frame)

    def test_help(self):
        status, out, _ = self.show("--help")
        self.assertEqual(status, 0)
        for words in ("FRAME.astc OUT.png", "--scale N", "The status is 0 where all blocks are sound"):
            self.assertIn(words, " ".join(out.split()))


if __name__ == "__main__":
    unittest.main()
