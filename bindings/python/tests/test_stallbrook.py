"""The package against what the calls are known to answer, and its doc examples. Run by tests/python/run, with numpy and without where it is there."""

import ctypes
import doctest
import math
import os
import pathlib
import pickle
import subprocess
import sys
import tempfile
import threading
import types
import unittest
import unittest.mock

import stallbrook
from stallbrook import Fault, Footprint, Kind, Picture, Refused, Volume

SOUND = bytes([0x42, 0, 0, 0xFE, 1, 0, 0, 0, 0, 0, 0, 0, 0, 0, 0, 0x80])
HDR = bytes([0xFC] + [0xFF] * 7 + [0, 0x3C, 0, 0x7C, 0, 0x38, 0, 0x40])  # an HDR void extent: 1.0, infinity, 0.5, 2.0
CUBE = bytes([0x13, 0, 0, 0xFE, 1, 0, 0, 0, 0, 0, 0, 0, 0, 0x5F, 0x63, 0x11])  # 3x3x3: greys 0 to 255 from corner to corner
PACKAGE = pathlib.Path(stallbrook.__file__).parent


def load_tests(loader, tests, ignore):
    tests.addTests(doctest.DocTestSuite(stallbrook))
    return tests


class Told(unittest.TestCase):
    def refused(self, number, call, *words):
        with self.assertRaises(Refused) as caught:
            call(*words)
        self.assertEqual(caught.exception.number, number)
        self.assertIn(caught.exception.text, str(caught.exception))


class Pictures(Told):
    def test_kinds(self):
        picture = Picture(SOUND + bytes(16), Footprint.F4X4, 8, 4)
        for kind, first, bad in ((Kind.UNORM16, [21504] * 3 + [65535], [65535, 0, 65535, 65535]), (Kind.SRGB8, [84] * 3 + [255], [255, 0, 255, 255])):
            texels, tally = picture.decode(kind)
            self.assertEqual(texels.shape, (4, 8, 4))
            self.assertEqual(texels.tolist()[0][0], first)
            self.assertEqual(texels.tolist()[3][7], bad)
            self.assertEqual(tally, (1, (1, Fault(11))))
        texels, tally = picture.decode("float16")
        if stallbrook.numpy is None:
            self.assertEqual(texels.tolist()[0][0], [0x3540] * 3 + [0x3C00])
            self.assertEqual(texels.tolist()[0][4], [65535] * 4)
        else:
            self.assertEqual(str(texels.dtype), "float16")
            self.assertEqual(texels[0, 0].tolist(), [0.328125] * 3 + [1.0])
            self.assertTrue(all(map(math.isnan, texels[0, 4])))
        self.assertEqual(tally.first.fault.text, "the block mode is reserved")

    def test_hdr(self):
        picture = Picture(HDR, "4x4", 1, 1)
        self.assertEqual(picture.texel(0, 0, "float16"), ((1.0, float("inf"), 0.5, 2.0), None))
        self.assertEqual(picture.decode("unorm16").tally.first.fault, Fault(13))
        self.assertEqual(picture.decode("float16").tally, (0, None))

    def test_every_texel_is_the_pictures(self):
        blocks = bytes((37 * i * i + i // 7) % 256 for i in range(16 * 9))
        for kind in (Kind.UNORM16, Kind.SRGB8):
            picture = Picture(SOUND + blocks[16:], "6x6", 16, 17)
            rows = picture.decode(kind).texels.tolist()
            for y in range(17):
                for x in range(16):
                    self.assertEqual(list(picture.texel(x, y, kind).rgba), rows[y][x])

    def test_faults(self):
        picture = Picture(SOUND + HDR + bytes(16) + HDR + SOUND + SOUND, "4x4", 9, 8)
        self.assertEqual(picture.faults("unorm16").tolist(), [[0, 13, 11], [13, 0, 0]])
        self.assertEqual(picture.faults(Kind.FLOAT16).tolist(), [[0, 0, 11], [0, 0, 0]])
        self.assertEqual(picture.bad_blocks("srgb8"), {1: Fault(13), 2: Fault(11), 3: Fault(13)})
        self.assertEqual(picture.bad_blocks("float16"), {2: Fault(11)})
        self.refused(2, picture.faults, 3)
        tally = picture.decode("srgb8").tally
        self.assertEqual((tally.faulty, tally.first), (3, (1, Fault(13))))

    def test_strict_faults(self):
        spare = SOUND[:5] + b"\1" + SOUND[6:]
        picture = Picture(SOUND + HDR + bytes(16) + spare + SOUND + spare, "4x4", 9, 8)
        for kind in ("unorm16", "srgb8"):
            self.assertEqual(picture.faults(kind).tolist(), [[0, 13, 11], [0, 0, 0]])
            self.assertEqual(picture.faults(kind, strict=True).tolist(), [[0, 13, 11], [21, 0, 21]])
        self.assertEqual(picture.faults("float16", strict=True).tolist(), [[0, 0, 11], [21, 0, 21]])
        self.refused(2, lambda: picture.faults(3, strict=True))
        for kind, told in (("srgb8", (4, (1, Fault(13)))), ("float16", (3, (2, Fault(11))))):
            self.assertEqual(picture.decode(kind, strict=True).tally, told)
        self.assertEqual(picture.canonical().faults("float16", strict=True).tolist(), [[0, 0, 11], [0, 0, 0]])

    def test_refusals(self):
        self.refused(1, Picture, SOUND, 14, 3, 3)
        self.refused(1, Picture, SOUND, 24, 4, 4)
        self.refused(1, Picture, SOUND, "4x5", 4, 4)
        self.refused(3, Picture, SOUND, "4x4", 0, 4)
        self.refused(3, Picture, SOUND, "4x4", -1, 4)
        self.refused(3, Picture, SOUND, "4x4", 16385, 4)
        self.refused(3, Picture, SOUND, "4x4", 1 << 40, 4)
        self.refused(4, Picture, SOUND[:15], "4x4", 4, 4)
        self.refused(4, Picture, b"", "4x4", 4, 4)
        picture = Picture(SOUND, "4x4", 4, 4)
        self.refused(2, picture.decode, 3)
        self.refused(2, picture.decode, "rgb")
        for x, y in ((4, 0), (0, 4), (-1, 0), (1 << 40, 0)):
            self.refused(44, picture.texel, x, y)

    def test_what_has_bytes(self):
        strided = memoryview(bytes(b for byte in SOUND for b in (byte, 0)))[::2]
        for data in (SOUND, bytearray(SOUND), memoryview(SOUND), memoryview(bytearray(SOUND)), strided):
            self.assertEqual(Picture(data, "4x4", 4, 4).blocks, SOUND)
            texels, fault = stallbrook.decode_block("4x4", data)
            self.assertEqual((texels.tolist()[0][0], fault), ([84, 84, 84, 255], None))
            self.assertEqual(stallbrook.read_sheet("4x4", data)["planes"], 1)
        for empty in (b"", bytearray(), memoryview(b"")):
            self.refused(4, stallbrook.decode_block, "4x4", empty)

    def test_blocks(self):
        picture = Picture(SOUND + HDR, "4x4", 5, 4)
        self.assertEqual((picture.across, picture.down), (2, 1))
        self.assertEqual((picture.block(0, 0), picture.block(1, 0)), (SOUND, HDR))
        self.assertRaises(IndexError, picture.block, 2, 0)
        self.assertEqual(repr(picture), "<Picture 5 by 4, 4x4>")

    def test_a_picture_keeps_its_blocks(self):
        lent = bytearray(SOUND)
        picture = Picture(lent, "4x4", 4, 4)
        lent[:] = bytes(16)
        self.assertEqual(picture.texel(0, 0).fault, None)


class Volumes(Told):
    def test_kinds(self):
        # two blocks in a row, the second showing a column, and two behind them that are damaged
        volume = Volume(CUBE + CUBE + bytes(32), "3x3x3", 4, 3, 4)
        for kind, corner, bad in ((Kind.UNORM16, 65535, [65535, 0, 65535, 65535]), (Kind.SRGB8, 255, [255, 0, 255, 255])):
            texels, tally = volume.decode(kind)
            self.assertEqual(texels.shape, (4, 3, 4, 4))
            self.assertEqual(texels.tolist()[2][2][2], [corner] * 4)
            self.assertEqual(texels.tolist()[3][0][0], bad)
            self.assertEqual(tally, (2, (2, Fault(11))))
        greys = [[[texel[0] for texel in row] for row in layer] for layer in volume.decode("srgb8").texels.tolist()]
        self.assertEqual(greys[0], [[0, 20, 36, 0], [36, 56, 72, 36], [72, 92, 108, 72]])
        self.assertEqual(greys[2], [[147, 167, 183, 147], [183, 203, 219, 183], [219, 239, 255, 219]])
        self.assertEqual(Volume(HDR, "6x5x5", 1, 1, 2).decode("float16").tally, (0, None))
        self.assertEqual(Volume(HDR, "6x5x5", 1, 1, 2).decode("unorm16").tally.first.fault, Fault(13))

    def test_slices(self):
        volume = Volume(SOUND + bytes(16) + SOUND, "4x4", 4, 4, 3)
        texels, tally = volume.decode()
        slices = [Picture(block, "4x4", 4, 4).decode().texels.tolist() for block in (SOUND, bytes(16), SOUND)]
        self.assertEqual((texels.tolist(), tally), (slices, (1, (1, Fault(11)))))

    def test_strict(self):
        volume = Volume(CUBE[:5] + bytes([1]) + CUBE[6:], "3x3x3", 3, 3, 3)
        self.assertEqual(volume.decode().tally, (0, None))
        self.assertEqual(volume.decode(strict=True).tally, (1, (0, Fault(21))))
        self.assertEqual(Volume(CUBE, "3x3x3", 3, 3, 3).decode("float16", strict=True).tally, (0, None))

    def test_refusals(self):
        self.refused(1, Volume, CUBE, 24, 1, 1, 1)
        self.refused(1, Volume, CUBE, "3x3x4", 1, 1, 1)
        for sides in ((0, 1, 1), (1, 0, 1), (1, 1, 0), (16385, 1, 1), (1, 16385, 1), (1, 1, 2049), (1, 1, -1), (1, 1, 1 << 40)):
            self.refused(3, Volume, CUBE, "3x3x3", *sides)
        self.refused(4, Volume, CUBE, "3x3x3", 3, 3, 4)
        self.refused(4, Volume, CUBE * 2, "3x3x3", 3, 3, 3)
        self.refused(4, Volume, CUBE, "4x4", 4, 4, 2)
        self.refused(2, Volume(CUBE, "3x3x3", 3, 3, 3).decode, 3)

    def test_a_volume_is_a_value(self):
        volume = Volume(bytearray(CUBE), (3, 3, 3), 2, 3, 1)
        self.assertEqual((volume, hash(volume)), (Volume(CUBE, 14, 2, 3, 1), hash(Volume(CUBE, 14, 2, 3, 1))))
        self.assertNotEqual(volume, Volume(CUBE, 14, 2, 3, 2))
        self.assertEqual((volume.counts, Volume(CUBE * 12, 14, 4, 6, 7).counts), ((1, 1, 1), (2, 2, 3)))


class Files(Told):
    def test_bytes_and_path(self):
        file = Picture(SOUND, "4x4", 3, 2).to_file()
        self.assertEqual(file[:16].hex(), "13aba15c040401030000020000010000")
        with tempfile.TemporaryDirectory() as place:
            path = pathlib.Path(place) / "frame.astc"
            path.write_bytes(file)
            for given in (file, bytearray(file), path, str(path)):
                picture = stallbrook.open(given)
                self.assertEqual((picture.footprint, picture.width, picture.height, picture.blocks), (Footprint.F4X4, 3, 2, SOUND))
            self.assertRaises(FileNotFoundError, stallbrook.open, str(path) + ".other")

    def test_refusals(self):
        file = Picture(SOUND, "4x4", 3, 2).to_file()
        self.refused(41, stallbrook.open, file[:15])
        self.refused(41, stallbrook.open, b"")
        self.refused(42, stallbrook.open, b"\0" + file[1:])
        self.refused(43, stallbrook.open, file[:4] + b"\7" + file[5:])
        self.refused(3, stallbrook.open, file[:7] + bytes(3) + file[10:])
        self.refused(4, stallbrook.open, file + b"\0")

    def test_sides_are_the_librarys(self):
        for footprint in Footprint:
            self.assertEqual(stallbrook.decode_block(footprint, bytes(16))[0].shape, (*footprint.sides[::-1], 4))
            self.assertEqual(len(footprint.sides), 2 if footprint < 14 else 3)
            if footprint < 14:
                self.assertEqual(tuple(Picture(SOUND, footprint, 1, 1).to_file()[4:7]), (*footprint.sides, footprint.depth))
            else:
                self.assertEqual(Volume(SOUND, footprint, *footprint.sides).counts, (1, 1, 1))


class Sheets(Told):
    def test_there_and_back(self):
        sheet = stallbrook.read_sheet("4x4", SOUND)
        self.assertEqual([sheet[name] for name in ("void_extent", "grid_width", "grid_height", "weight_range", "planes", "partitions", "hdr")], [0, 4, 4, 2, 1, 1, 0])
        self.assertEqual((len(sheet["weights"]), sheet["weights"][:2], len(sheet["endpoints"])), (64, [1, 0], 18))
        self.assertEqual(stallbrook.write_sheet("4x4", sheet), SOUND)
        sheet["endpoints"][0] = 256
        self.refused(34, stallbrook.write_sheet, "4x4", sheet)
        sheet["planes"] = 3
        self.refused(31, stallbrook.write_sheet, "4x4", sheet)
        self.refused(14, stallbrook.write_sheet, "4x4", dict(stallbrook.read_sheet("5x5", SOUND), grid_width=5))
        sheet = stallbrook.read_sheet("4x4", HDR)
        self.assertEqual((sheet["void_extent"], sheet["colours"], sheet["hdr"]), (1, [0x3C00, 0x7C00, 0x3800, 0x4000], 1))
        self.assertEqual(stallbrook.write_sheet("4x4", sheet), HDR)

    def test_volumes(self):
        sheet = stallbrook.read_sheet("3x3x3", CUBE)
        self.assertEqual([sheet[name] for name in ("grid_width", "grid_height", "grid_depth", "weight_range")], [2, 2, 2, 5])
        self.assertEqual((sheet["weights"][:9], sheet["extents"]), ([0, 1, 2, 3, 4, 5, 6, 7, 0], [0] * 6))
        self.assertEqual(stallbrook.write_sheet("3x3x3", sheet), CUBE)
        self.refused(31, stallbrook.write_sheet, "4x4", sheet)
        self.refused(14, stallbrook.write_sheet, "3x3x3", dict(sheet, grid_depth=4))
        self.refused(32, stallbrook.write_sheet, "6x6x6", dict(sheet, grid_width=7))
        solid = {"void_extent": 1, "colours": [1, 2, 3, 4], "extents": [0, 1, 2, 3, 4, 511]}
        block = stallbrook.write_sheet("6x6x6", solid)
        self.assertEqual({name: stallbrook.read_sheet("6x6x6", block)[name] for name in solid}, solid)
        self.refused(31, stallbrook.write_sheet, "6x6", solid)
        self.refused(31, stallbrook.write_sheet, "6x6x6", dict(solid, extents=[0, 1, 2, 3, 4, 512]))
        self.refused(12, stallbrook.write_sheet, "6x6x6", dict(solid, extents=[0, 1, 2, 3, 5, 5]))
        self.assertRaises(ValueError, stallbrook.write_sheet, "6x6x6", dict(solid, extents=[511] * 4))

    def test_bad_sheets(self):
        self.assertRaises(KeyError, stallbrook.write_sheet, "4x4", {"colors": [0] * 4})
        self.assertRaises(ValueError, stallbrook.write_sheet, "4x4", {"colours": [0] * 3})
        self.assertRaises(ValueError, stallbrook.write_sheet, "4x4", {"planes": 65536})
        with self.assertRaises(stallbrook.Faulty) as caught:
            stallbrook.read_sheet("4x4", bytes(16))
        self.assertEqual((caught.exception.number, caught.exception.text), (11, "the block mode is reserved"))
        self.refused(4, stallbrook.read_sheet, "4x4", bytes(15))

    def test_bc7(self):
        sheet = {"mode": 6, "endpoints": [127] * 8 + [0] * 10, "p_bits": [1, 1, 0, 0, 0, 0]}
        block = stallbrook.write_bc7_sheet(sheet)
        read = stallbrook.read_bc7_sheet(block)
        self.assertEqual((read["mode"], read["endpoints"], read["p_bits"]), (6, sheet["endpoints"], sheet["p_bits"]))
        texels, tally = stallbrook.decode_bc7(block, 4, 4)
        self.assertEqual((texels.tolist(), tally), ([[[255] * 4] * 4] * 4, (0, None)))
        self.refused(72, stallbrook.write_bc7_sheet, {"mode": 8})
        self.refused(73, stallbrook.write_bc7_sheet, {"mode": 0, "rotation": 1})
        self.refused(3, stallbrook.decode_bc7, b"", 0, 1)
        self.refused(3, stallbrook.decode_bc7, b"", 16385, 1)
        self.refused(4, stallbrook.decode_bc7, b"", 1, 1)
        self.assertRaises(stallbrook.Faulty, stallbrook.read_bc7_sheet, bytes(16))


class Others(Told):
    def test_pvrtc(self):
        texels = stallbrook.decode_pvrtc(bytes([3, 0, 0, 0, 0, 0x80, 0xFF, 0xFF]), 4, 4)
        self.assertEqual((texels.shape, texels.tolist()[0][:2]), ((4, 4, 4), [[255] * 4, [0, 0, 0, 255]]))
        self.refused(61, stallbrook.decode_pvrtc, bytes(4), 4, 2)
        self.refused(61, stallbrook.decode_pvrtc, bytes(4), 8192, 4)
        self.refused(4, stallbrook.decode_pvrtc, bytes(4), 4, 4)

    def test_caption(self):
        self.assertEqual(stallbrook.caption(0, 255, bytes([80] + [0] * 15), 4, 4).blocks, SOUND)
        self.refused(5, stallbrook.caption, 0, 255, bytes(15), 4, 4)
        self.refused(3, stallbrook.caption, 0, 255, b"", 16385, 4)
        self.assertRaises(ValueError, stallbrook.caption, 0, 256, bytes(16), 4, 4)

    def test_clips(self):
        pictures = [Picture(SOUND + HDR, "4x4", 5, 4), Picture(HDR * 4, "12x12", 24, 13)]
        clip = b"\1" + stallbrook.write_frame(pictures[0], "srgb8") + stallbrook.write_frame(pictures[1], 2)
        for size in (1, 7, 16, 1000):
            reader = stallbrook.Clip()
            frames = [frame for at in range(0, len(clip), size) for frame in reader.feed(clip[at : at + size])]
            reader.finish()
            self.assertEqual(frames, [(0, Kind.SRGB8, pictures[0]), (1, Kind.FLOAT16, pictures[1])])
            self.assertEqual(reader.feed(b"more"), [])
        reader = stallbrook.Clip()
        self.refused(51, reader.feed, b"\2")
        self.refused(51, reader.feed, b"\1")
        self.refused(51, reader.finish)
        # a refusal behind a frame of the same piece is told by the next call
        reader = stallbrook.Clip()
        self.assertEqual(len(reader.feed(b"\1" + stallbrook.write_frame(pictures[0]) + bytes(10))), 1)
        self.refused(3, reader.feed, b"")
        self.refused(53, stallbrook.Clip().finish)
        self.refused(2, stallbrook.write_frame, pictures[0], 3)

    def test_footprints_and_kinds(self):
        for footprint in Footprint:
            for given in (footprint, int(footprint), str(footprint), footprint.sides):
                self.assertIs(Footprint.of(given), footprint)
        for other in (24, -1, "4X4", (4, 5), "4x4x5", (3, 3, 4), (4, 4, 1)):
            self.refused(1, Footprint.of, other)
        self.assertRaises(TypeError, Footprint.of, 4.0)
        self.assertEqual([Kind.of(str(kind)) for kind in Kind], list(Kind))

    def test_errors_are_values(self):
        error = pickle.loads(pickle.dumps(Refused(3)))
        self.assertEqual((type(error), error.number, str(error)), (Refused, 3, "3: a side is 0 or above 16,384, or a volume's depth is 0 or above 2,048"))
        self.assertTrue(issubclass(Refused, ValueError))

    def test_threads(self):
        picture = Picture(bytes((i * i // 5) % 256 for i in range(16 * 256)), "4x4", 64, 64)
        alone = [picture.decode(kind).texels.tolist() for kind in ("unorm16", "srgb8")]
        differ = []

        def run():
            for _ in range(5):
                if [picture.decode(kind).texels.tolist() for kind in ("unorm16", "srgb8")] != alone:
                    differ.append(1)

        threads = [threading.Thread(target=run) for _ in range(4)]
        for thread in threads:
            thread.start()
        for thread in threads:
            thread.join()
        self.assertEqual(differ, [])

    def test_room_in_an_array(self):
        """What is asked of numpy, whether it is there or not: zeros of a shape and a type, and their address."""

        class Zeros:
            def __init__(self, shape, dtype):
                self.shape, self.dtype = shape, dtype
                self.room = (ctypes.c_uint8 * (math.prod(shape) * {"uint8": 1, "uint16": 2, "float16": 2}[dtype]))()
                self.ctypes = types.SimpleNamespace(data=ctypes.addressof(self.room))

        with unittest.mock.patch.object(stallbrook, "numpy", types.SimpleNamespace(zeros=Zeros)):
            arrays = [Picture(SOUND, "4x4", 2, 1).decode(kind).texels for kind in Kind]
        self.assertEqual([array.shape for array in arrays], [(1, 2, 4)] * 3)
        self.assertEqual([array.dtype for array in arrays], ["uint16", "uint8", "float16"])
        self.assertEqual([bytes(array.room).hex() for array in arrays], ["005400540054ffff000000000000ffff", "545454ff000000ff", "403540354035003c000000000000003c"])

    @unittest.skipIf(stallbrook.numpy is None, "numpy is not there")
    def test_numpy(self):
        numpy = stallbrook.numpy
        blocks = numpy.frombuffer(SOUND + HDR, dtype=numpy.uint8)
        picture = Picture(blocks, (4, 4), numpy.int64(8), numpy.uint16(4))
        texels, _ = picture.decode("srgb8")
        self.assertIsInstance(texels, numpy.ndarray)
        self.assertEqual((texels.dtype, texels.flags.c_contiguous, texels.flags.writeable), (numpy.uint8, True, True))
        self.assertEqual(Footprint.of(numpy.int64(4)), Footprint.F6X6)
        self.assertEqual(stallbrook.caption(0, 255, texels[:, :4, 0].copy(), 4, 4).width, 4)


class Finding(unittest.TestCase):
    """Where the library is found; each in a Python of its own."""

    def imports(self, folder, **environment):
        kept = {name: value for name, value in os.environ.items() if name != "STALLBROOK_LIB"}
        code = "import stallbrook; print(stallbrook._library.LIBRARY._name)"
        return subprocess.run([sys.executable, "-c", code], cwd=folder, env=dict(kept, PYTHONPATH=str(folder), **environment), capture_output=True, text=True)

    def test_places(self):
        library = pathlib.Path(stallbrook._library.LIBRARY._name)
        with tempfile.TemporaryDirectory() as place:
            away = pathlib.Path(place) / "a" / "b" / "c" / "d"
            (away / "stallbrook").mkdir(parents=True)
            for path in PACKAGE.glob("*.py"):
                (away / "stallbrook" / path.name).write_bytes(path.read_bytes())
            named = self.imports(away, STALLBROOK_LIB=str(library))
            self.assertEqual(named.stdout.strip(), str(library), named.stderr)
            folder = self.imports(away, STALLBROOK_LIB=str(library.parent))
            self.assertEqual(folder.stdout.strip(), str(library), folder.stderr)
            beside = away / "stallbrook" / "libstallbrook.so"
            beside.symlink_to(library.resolve())
            self.assertEqual(self.imports(away).stdout.strip(), str(beside.parent.resolve() / beside.name))
            wrong = self.imports(away, STALLBROOK_LIB=str(away))
            self.assertIn("ImportError: libstallbrook.so is not found", wrong.stderr)
            (away / "stallbrook" / "_version.py").write_text('VERSION = "99.0.0"\n')
            self.assertIn("does not fit", self.imports(away).stderr)


if __name__ == "__main__":
    unittest.main()
