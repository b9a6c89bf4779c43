"""Compressed textures read exactly: ASTC pictures, volumes, .astc files and clips, BC7 and PVRTC1, to texels; ASTC and BC7 settings to blocks and back.

A picture is opened from an .astc file (a path, or its bytes), or made from blocks:

>>> import stallbrook
>>> sound = bytes([0x42, 0, 0, 0xFE, 1, 0, 0, 0, 0, 0, 0, 0, 0, 0, 0, 0x80])
>>> picture = stallbrook.Picture(sound + bytes(16), "4x4", 8, 4)  # two blocks, of which the second is damaged
>>> texels, tally = picture.decode("srgb8")
>>> texels.shape
(4, 8, 4)
>>> [int(texels[0, 0, channel]) for channel in range(4)]
[84, 84, 84, 255]

A damaged block shows magenta (in half floats NaN), and its fault is told:

>>> tally.faulty, tally.first.block, str(tally.first.fault)
(1, 1, 'the block mode is reserved')
>>> picture.faults("srgb8").tolist()
[[0, 11]]
>>> picture.texel(4, 0)
Texel(rgba=(255, 0, 255, 255), fault=Fault(number=11))

What cannot be done at all is refused, with a number and a sentence:

>>> stallbrook.Picture(sound, "4x4", 8, 4)
Traceback (most recent call last):
stallbrook.Refused: 4: the blocks' bytes are not exactly 16 for each block (PVRTC1: 8 for each word)

A block's settings are a dict, and written back:

>>> sheet = stallbrook.read_sheet("4x4", sound)
>>> sheet["grid_width"], sheet["endpoints"][:2]
(4, [0, 255])
>>> stallbrook.write_sheet("4x4", sheet) == sound
True

A volume is made from blocks of several layers (or, slice by slice, of flat ones):

>>> cube = bytes([0x13, 0, 0, 0xFE, 1, 0, 0, 0, 0, 0, 0, 0, 0, 0x5F, 0x63, 0x11])
>>> texels, tally = stallbrook.Volume(cube * 2, "3x3x3", 3, 3, 5).decode("srgb8")
>>> texels.shape, int(texels[1, 0, 0, 0])
((5, 3, 3, 4), 76)

Pictures are numpy arrays where numpy can be imported, else memoryviews of the same shape. Inputs are anything with bytes: bytes, bytearray, memoryview,
arrays. Calls may run on several threads, and let other Python threads run meanwhile; what is lent to a call must not change while it runs.
"""

from __future__ import annotations

import ctypes
import enum
import operator
import os
from typing import Any, Dict, List, Mapping, NamedTuple, Optional, Tuple, TypedDict, Union

from . import _library
from ._version import VERSION as __version__

try:
    import numpy
except ImportError:
    numpy = None  # type: ignore[assignment]

__all__ = [
    "Bc7Sheet", "Clip", "Decoded", "Error", "Fault", "Faulty", "FirstFault", "Footprint", "Frame", "Kind", "Picture", "Refused", "Sheet", "Spare", "Tally", "Texel", "Volume",
    "caption", "decode_bc7", "decode_block", "decode_pvrtc", "open", "read_bc7_sheet", "read_sheet", "spare_bits", "write_bc7_sheet", "write_frame", "write_sheet",
]

Bytes = Union[bytes, bytearray, memoryview, Any]
"""Anything with bytes."""
Array = Any
"""A numpy array where numpy can be imported, else a memoryview of the same shape."""


class Footprint(enum.IntEnum):
    """How many texels a block covers, of a volume in several layers. Where a footprint is taken, its number, "6x6" and (6, 6) are too.

    >>> Footprint.of("6x6"), Footprint.of((6, 6)), Footprint.of(4)
    (<Footprint.F6X6: 4>, <Footprint.F6X6: 4>, <Footprint.F6X6: 4>)
    >>> str(Footprint.F10X8), Footprint.F10X8.sides, Footprint.F10X8.depth
    ('10x8', (10, 8), 1)
    >>> str(Footprint.F5X4X4), Footprint.F5X4X4.sides, Footprint.F5X4X4.depth
    ('5x4x4', (5, 4, 4), 4)
    """

    F4X4 = 0
    F5X4 = 1
    F5X5 = 2
    F6X5 = 3
    F6X6 = 4
    F8X5 = 5
    F8X6 = 6
    F8X8 = 7
    F10X5 = 8
    F10X6 = 9
    F10X8 = 10
    F10X10 = 11
    F12X10 = 12
    F12X12 = 13
    F3X3X3 = 14
    F4X3X3 = 15
    F4X4X3 = 16
    F4X4X4 = 17
    F5X4X4 = 18
    F5X5X4 = 19
    F5X5X5 = 20
    F6X5X5 = 21
    F6X6X5 = 22
    F6X6X6 = 23

    @property
    def sides(self) -> Tuple[int, ...]:
        """Texels in a row, rows, and of a volume layers."""
        return tuple(map(int, self.name[1:].split("X")))

    @property
    def depth(self) -> int:
        """Layers: 1 of a flat footprint."""
        return self.sides[2] if len(self.sides) == 3 else 1

    def __str__(self) -> str:
        return "x".join(map(str, self.sides))

    @classmethod
    def of(cls, footprint: "FootprintLike") -> "Footprint":
        """The footprint of a number, of "6x6" or "4x4x4", of (6, 6) or (4, 4, 4); others are refused by 1."""
        if not isinstance(footprint, (str, tuple)):
            footprint = operator.index(footprint)
        for one in cls:
            if footprint in (one.value, str(one), one.sides):
                return one
        raise Refused(1)


FootprintLike = Union[Footprint, int, str, Tuple[int, ...]]


class Kind(enum.IntEnum):
    """What a texel's four numbers are: 16-bit numbers, bytes before the sRGB curve, or half floats of LDR and HDR blocks.
    Where a kind is taken, its number and its name in small letters are too.

    >>> Kind.of("srgb8")
    <Kind.SRGB8: 1>
    """

    UNORM16 = 0
    SRGB8 = 1
    FLOAT16 = 2

    def __str__(self) -> str:
        return self.name.lower()

    @classmethod
    def of(cls, kind: "KindLike") -> "Kind":
        """The kind of a number or a name; others are refused by 2."""
        if not isinstance(kind, str):
            kind = operator.index(kind)
        for one in cls:
            if kind in (one.value, str(one)):
                return one
        raise Refused(2)


KindLike = Union[Kind, int, str]


class Error(ValueError):
    """A call has no result. `number` is the documents' number, `text` says it in words."""

    def __init__(self, number: int) -> None:
        self.number = number
        self.text = _library.text(number)
        super().__init__(f"{number}: {self.text}")

    def __reduce__(self) -> Any:
        return type(self), (self.number,)


class Refused(Error):
    """The call was refused."""


class Faulty(Error):
    """The block whose settings were to be read has a fault."""


class Fault(NamedTuple):
    """What is wrong with a block.

    >>> Fault(14).text
    'the weight grid is larger than the footprint'
    """

    number: int

    @property
    def text(self) -> str:
        """The English sentence."""
        return _library.text(self.number)

    def __str__(self) -> str:
        return self.text


class FirstFault(NamedTuple):
    """The first block of a picture that has a fault: its index in the blocks' order, and the fault."""

    block: int
    fault: Fault


class Tally(NamedTuple):
    """How many blocks of a picture have a fault, and the first of them, None where all are sound."""

    faulty: int
    first: Optional[FirstFault]


class Decoded(NamedTuple):
    """A picture's texels, by row, column and channel, of a volume by layer first, and what is told of its blocks."""

    texels: Array
    tally: Tally


class Texel(NamedTuple):
    """One texel, and the fault of its block, None where it has none. In half floats the four are floats."""

    rgba: Tuple[Union[int, float], ...]
    fault: Optional[Fault]


class Frame(NamedTuple):
    """A frame of a clip: its index, the kind that it is meant to be shown in, and its picture."""

    index: int
    kind: Kind
    picture: "Picture"


class Sheet(TypedDict, total=False):
    """A block's settings and stored numbers; unused ones are 0. `void_extent` marks a solid block, `hdr` an HDR one. `grid_depth` is 1 at flat footprints
    and 2 to 6 at volumes; the six extents are low and high of s, t and r, of which a flat solid block has no r."""

    void_extent: int
    colours: List[int]
    extents: List[int]
    grid_width: int
    grid_height: int
    weight_range: int
    planes: int
    plane_channel: int
    partitions: int
    partition_index: int
    selector: int
    modes: List[int]
    endpoints: List[int]
    weights: List[int]
    hdr: int
    grid_depth: int


class Bc7Sheet(TypedDict, total=False):
    """A BC7 block's fields as stored; those that the mode lacks are 0."""

    mode: int
    partition: int
    rotation: int
    selection: int
    endpoints: List[int]
    p_bits: List[int]
    primary: List[int]
    secondary: List[int]


_Fields = Mapping[str, Union[int, List[int]]]
"""Where the fields stand in a flat list: a number's place, or the places of a list's numbers."""


def _fields(sheet: Any, **lists: int) -> Any:
    """The fields of a sheet, which stand in their order; how many numbers a list has."""
    places: Dict[str, Union[int, List[int]]] = {}
    at = 0
    for name in sheet.__annotations__:
        places[name] = list(range(at, at + lists[name])) if name in lists else at
        at += lists.get(name, 1)
    return places


_SHEET = _fields(Sheet, colours=4, extents=4, modes=4, endpoints=18, weights=64)
_SHEET["extents"] += [105, 106]  # those of the third axis stand last
_SHEET_NUMBERS = 107
_BC7_SHEET = _fields(Bc7Sheet, endpoints=18, p_bits=6, primary=16, secondary=16)
_BC7_NUMBERS = 60


def _told(number: int) -> None:
    """Every number but 0 is a refusal."""
    if number:
        raise Refused(number)


def _fault(number: int) -> Optional[Fault]:
    return Fault(number) if number else None


def _lent(data: Bytes) -> Tuple[Any, int]:
    """A call's list of bytes that it only reads: what ctypes takes, and the length. Copied where Python lends no address of it."""
    if not isinstance(data, bytes):
        view = memoryview(data)
        if view.readonly or not view.c_contiguous:
            data = view.tobytes()
        else:
            view = view.cast("B") if view.nbytes else memoryview(bytearray())
            return (ctypes.c_uint8 * view.nbytes).from_buffer(view), view.nbytes
    return data, len(data)


def _bytes(count: int) -> Any:
    return (ctypes.c_uint8 * count)()


class _Texels:
    """Room for texels of a shape, in a kind, as an array and as a call's list."""

    def __init__(self, kind: Kind, shape: Tuple[int, ...]) -> None:
        self.count = 1
        for side in shape:
            self.count *= side
        if numpy is not None:
            self.array = numpy.zeros(shape, dtype=("uint16", "uint8", "float16")[kind])
            self.address = self.array.ctypes.data
        else:
            self.address = ((ctypes.c_uint8 if kind is Kind.SRGB8 else ctypes.c_uint16) * self.count)()
            flat = memoryview(self.address).cast("B")
            self.array = flat.cast("B" if kind is Kind.SRGB8 else "H", shape) if self.count else flat


def _half(pattern: int) -> float:
    """The value of a half float's pattern."""
    sign, exponent, rest = pattern >> 15, pattern >> 10 & 31, pattern & 1023
    if exponent == 31:
        value = float("nan") if rest else float("inf")
    else:
        value = rest * 2.0**-24 if exponent == 0 else (1024 + rest) * 2.0 ** (exponent - 25)
    return -value if sign else value


def _decoded(number: int, texels: _Texels, tally: Any) -> Decoded:
    _told(number)
    faulty, block, fault = tally
    return Decoded(texels.array, Tally(faulty, FirstFault(block, Fault(fault)) if faulty else None))


class Picture:
    """A picture's blocks, in raster order, with its footprint and sides in texels. Refused by 1, 3 (sides) and 4 (length of the blocks).

    The blocks are lent, not copied, where they are bytes; of what may change a copy is kept.

    >>> picture = Picture(bytes(range(64)), "10x8", 11, 9)
    >>> picture, picture.across, picture.down
    (<Picture 11 by 9, 10x8>, 2, 2)
    >>> picture.block(1, 0)[0]
    16
    """

    __slots__ = ("footprint", "width", "height", "blocks")

    footprint: Footprint
    width: int
    height: int
    blocks: bytes

    def __init__(self, blocks: Bytes, footprint: FootprintLike, width: int, height: int) -> None:
        self.footprint = Footprint.of(footprint)
        self.width, self.height = _side(width), _side(height)
        self.blocks = blocks if isinstance(blocks, bytes) else memoryview(blocks).tobytes()
        _told(_library.VIEW_REFUSAL(*self._lent()))

    def _lent(self) -> Tuple[Any, ...]:
        return self.footprint, self.width, self.height, self.blocks, len(self.blocks)

    def __repr__(self) -> str:
        return f"<Picture {self.width} by {self.height}, {self.footprint}>"

    def __eq__(self, other: object) -> bool:
        return isinstance(other, Picture) and self._lent() == other._lent()

    def __hash__(self) -> int:
        return hash(self._lent())

    @property
    def across(self) -> int:
        """Blocks in a row."""
        return -(-self.width // self.footprint.sides[0])

    @property
    def down(self) -> int:
        """Rows of blocks."""
        return -(-self.height // self.footprint.sides[1])

    def decode(self, kind: KindLike = Kind.SRGB8, *, strict: bool = False) -> Decoded:
        """All texels, an array of height x width x 4 (R, G, B, A), and what is told of blocks with a fault.

        In the strict reading a block that is not in its canonical form has fault 21.

        Half floats are numpy's float16; without numpy they are 16-bit patterns.

        >>> block = bytes([0x42, 0, 0, 0xFE, 1, 0, 0, 0, 0, 0, 0, 0, 0, 0, 0, 0x80])
        >>> texels, tally = Picture(block, "4x4", 2, 1).decode("unorm16")
        >>> texels.tolist()
        [[[21504, 21504, 21504, 65535], [0, 0, 0, 65535]]]
        >>> tally
        Tally(faulty=0, first=None)
        """
        kind = Kind.of(kind)
        texels, tally = _Texels(kind, (self.height, self.width, 4)), (ctypes.c_uint64 * 3)()
        call = (_library.STRICT_DECODE_IMAGE if strict else _library.DECODE_IMAGE)[kind]
        return _decoded(call(*self._lent(), texels.address, texels.count, tally, 3), texels, tally)

    def faults(self, kind: KindLike = Kind.SRGB8, *, strict: bool = False) -> Array:
        """Each block's fault in a kind, as a number, 0 for none: an array of bytes, rows of blocks x blocks in a row. No texel is painted.

        >>> Picture(bytes(16) + bytes([0xFC, 0xFD] + [0xFF] * 14), "4x4", 8, 4).faults().tolist()
        [[11, 0]]
        >>> spare = bytes([0x42, 0, 0, 0xFE, 1, 1, 0, 0, 0, 0, 0, 0, 0, 0, 0, 0x80])
        >>> Picture(spare, "4x4", 4, 4).faults(strict=True).tolist()
        [[21]]
        """
        faults, tally = _Texels(Kind.SRGB8, (self.down, self.across)), (ctypes.c_uint64 * 3)()
        footprint, *rest = self._lent()
        call = _library.STRICT_IMAGE_FAULTS if strict else _library.IMAGE_FAULTS
        _told(call(footprint, Kind.of(kind), *rest, faults.address, faults.count, tally, 3))
        return faults.array

    def bad_blocks(self, kind: KindLike = Kind.SRGB8) -> Dict[int, Fault]:
        """The blocks that have a fault in a kind, by index in raster order.

        >>> Picture(bytes(16) + bytes([0xFC, 0xFD] + [0xFF] * 14), "4x4", 8, 4).bad_blocks()
        {0: Fault(number=11)}
        """
        return {index: Fault(number) for index, number in enumerate(memoryview(self.faults(kind)).tobytes()) if number}

    def canonical(self) -> "Picture":
        """The picture with every block in its canonical form, which passes the strict reading and shows the same texels; blocks with a fault in
        half floats are as they were.

        >>> block = bytes([0x42, 0, 0, 0xFE, 1, 0, 0, 0, 0, 0, 0, 0, 0, 0, 0, 0x80])
        >>> spare = block[:5] + bytes([1]) + block[6:]
        >>> Picture(spare, "4x4", 4, 4).canonical().blocks == block
        True
        """
        blocks, tally = _bytes(len(self.blocks)), (ctypes.c_uint64 * 3)()
        _told(_library.CANONICAL_IMAGE(*self._lent(), blocks, len(self.blocks), tally, 3))
        return Picture(bytes(blocks), self.footprint, self.width, self.height)

    def texel(self, x: int, y: int, kind: KindLike = Kind.SRGB8) -> Texel:
        """The texel in column x and row y; no block is unpacked. Refused by 44 outside the picture.

        >>> block = bytes([0x42, 0, 0, 0xFE, 1, 0, 0, 0, 0, 0, 0, 0, 0, 0, 0, 0x80])
        >>> picture = Picture(block, "4x4", 4, 4)
        >>> picture.texel(0, 0, "float16")
        Texel(rgba=(0.328125, 0.328125, 0.328125, 1.0), fault=None)
        >>> picture.texel(4, 0)
        Traceback (most recent call last):
        stallbrook.Refused: 44: the texel is outside the image, or the image is refused
        """
        kind, x, y = Kind.of(kind), operator.index(x), operator.index(y)
        if not (0 <= x < self.width and 0 <= y < self.height):
            raise Refused(44)
        out = ((ctypes.c_uint8 if kind is Kind.SRGB8 else ctypes.c_uint16) * 4)()
        fault = _library.TEXEL[kind](*self._lent(), x, y, out, 4)
        return Texel(tuple(map(_half, out) if kind is Kind.FLOAT16 else out), _fault(fault))

    def block(self, column: int, row: int) -> bytes:
        """The 16 bytes of a block, by column and row of blocks."""
        if not (0 <= column < self.across and 0 <= row < self.down):
            raise IndexError("there is no such block")
        start = 16 * (row * self.across + column)
        return self.blocks[start : start + 16]

    def to_file(self) -> bytes:
        """The .astc file of the picture.

        >>> picture = Picture(bytes(16), "4x4", 3, 2)
        >>> open(picture.to_file()) == picture
        True
        """
        header = _bytes(16)
        _told(_library.WRITE_HEADER(self.footprint, self.width, self.height, header, 16))
        return bytes(header) + self.blocks


class Volume:
    """A volume's blocks, x fastest, then y, then z, with its footprint and sides in texels. Refused by 1, 3 (sides, or a depth above 2,048) and 4 (length of
    the blocks). Of a flat footprint each block is one layer thick. The blocks are kept as a Picture keeps them.

    >>> volume = Volume(bytes(64), "4x4x4", 5, 4, 8)
    >>> volume, volume.counts
    (<Volume 5 by 4 by 8, 4x4x4>, (2, 1, 2))
    """

    __slots__ = ("footprint", "width", "height", "depth", "blocks")

    footprint: Footprint
    width: int
    height: int
    depth: int
    blocks: bytes

    def __init__(self, blocks: Bytes, footprint: FootprintLike, width: int, height: int, depth: int) -> None:
        self.footprint = Footprint.of(footprint)
        self.width, self.height, self.depth = _side(width), _side(height), _side(depth)
        self.blocks = blocks if isinstance(blocks, bytes) else memoryview(blocks).tobytes()
        count = _library.VOLUME_BLOCKS(*self._lent()[:4])
        if not count:
            raise Refused(3)
        if len(self.blocks) != 16 * count:
            raise Refused(4)

    def _lent(self) -> Tuple[Any, ...]:
        return self.footprint, self.width, self.height, self.depth, self.blocks, len(self.blocks)

    def __repr__(self) -> str:
        return f"<Volume {self.width} by {self.height} by {self.depth}, {self.footprint}>"

    def __eq__(self, other: object) -> bool:
        return isinstance(other, Volume) and self._lent() == other._lent()

    def __hash__(self) -> int:
        return hash(self._lent())

    @property
    def counts(self) -> Tuple[int, int, int]:
        """Blocks in a row, rows of blocks, and layers of blocks."""
        width, height = self.footprint.sides[:2]
        return -(-self.width // width), -(-self.height // height), -(-self.depth // self.footprint.depth)

    def decode(self, kind: KindLike = Kind.SRGB8, *, strict: bool = False) -> Decoded:
        """All texels, an array of depth x height x width x 4 (R, G, B, A), and what is told of blocks with a fault, as `Picture.decode`.

        >>> block = bytes([0x13, 0, 0, 0xFE, 1, 0, 0, 0, 0, 0, 0, 0, 0, 0x5F, 0x63, 0x11])
        >>> texels, tally = Volume(block + bytes(16), "3x3x3", 3, 3, 4).decode("unorm16")
        >>> [int(texels[z, 2, 2, 1]) for z in range(4)]
        [27648, 47103, 65535, 0]
        >>> tally.first
        FirstFault(block=1, fault=Fault(number=11))
        """
        kind = Kind.of(kind)
        texels, tally = _Texels(kind, (self.depth, self.height, self.width, 4)), (ctypes.c_uint64 * 3)()
        call = (_library.STRICT_DECODE_VOLUME if strict else _library.DECODE_VOLUME)[kind]
        return _decoded(call(*self._lent(), texels.address, texels.count, tally, 3), texels, tally)


def _side(side: int) -> int:
    """A side that the calls take as a 32-bit number; others are refused by 3, as they would be."""
    side = operator.index(side)
    if not 0 < side <= 0xFFFF_FFFF:
        raise Refused(3)
    return side


def open(file: Union[str, "os.PathLike[str]", Bytes]) -> Picture:
    """The picture of an .astc file: a path, or the file's bytes. Refused by 41 (fewer than 16 bytes), 42 (another start), 43 (footprint, depth or third
    size), 3 (sides) and 4 (length).

    >>> open(b"a GIF, perhaps, or something else")
    Traceback (most recent call last):
    stallbrook.Refused: 42: the file does not begin as .astc files do
    """
    if isinstance(file, (str, os.PathLike)):
        import builtins

        with builtins.open(file, "rb") as stream:
            file = stream.read()
    data = file if isinstance(file, bytes) else memoryview(file).tobytes()
    header = (ctypes.c_uint32 * 3)()
    _told(_library.READ_HEADER(data, len(data), header, 3))
    footprint, width, height = header
    return Picture(data[16:], footprint, width, height)


def decode_block(
    footprint: FootprintLike, block: Bytes, kind: KindLike = Kind.SRGB8, *, strict: bool = False
) -> Tuple[Array, Optional[Fault]]:
    """One block's texels, an array of its rows x columns x 4, of a volume layers x rows x columns x 4, and its fault, None where it has none. Refused by 4
    where it is not of 16 bytes.

    >>> texels, fault = decode_block("4x4", bytes(16))
    >>> fault
    Fault(number=11)
    >>> decode_block("5x4x3", bytes(16))
    Traceback (most recent call last):
    stallbrook.Refused: 1: the footprint is above 23, or above 13 where only flat ones are taken
    >>> decode_block("5x4x4", bytes(16))[0].shape
    (4, 4, 5, 4)
    """
    footprint, kind = Footprint.of(footprint), Kind.of(kind)
    texels = _Texels(kind, (*reversed(footprint.sides), 4))
    call = (_library.STRICT_DECODE_BLOCK if strict else _library.DECODE_BLOCK)[kind]
    number = call(footprint, *_lent(block), texels.address, texels.count)
    if 0 < number <= 5:
        raise Refused(number)
    return texels.array, _fault(number)


def _read(number: int, numbers: Any, fields: _Fields) -> Any:
    if number:
        raise (Refused if number <= 5 else Faulty)(number)
    return {name: [numbers[i] for i in at] if isinstance(at, list) else numbers[at] for name, at in fields.items()}


def _numbers(sheet: Mapping[str, Any], fields: _Fields, count: int, most: int) -> List[int]:
    """A sheet's fields as one list; fields that are not there are 0."""
    unknown = sorted(set(sheet) - set(fields))
    if unknown:
        raise KeyError("no such field: " + ", ".join(unknown))
    numbers = [0] * count
    for name, given in sheet.items():
        at = fields[name]
        places, field = (at, list(given)) if isinstance(at, list) else ([at], [given])
        if len(field) != len(places):
            raise ValueError(f"{name} is of {len(places)} numbers")
        if not all(0 <= number <= most for number in field):
            raise ValueError(f"a number of {name} is not from 0 to {most}")
        for place, number in zip(places, field):
            numbers[place] = number
    return numbers


def read_sheet(footprint: FootprintLike, block: Bytes, *, strict: bool = False) -> Sheet:
    """A block's settings and stored numbers. Refused by 4; Faulty where the block has a fault in half floats."""
    return _read_symbolic(footprint, block, strict)[0]


class Spare(NamedTuple):
    """The bits of a block that no field has: how many, and whether any is set."""

    count: int
    set: bool


def spare_bits(footprint: FootprintLike, block: Bytes) -> Spare:
    """What is told of a block's spare bits, between endpoint numbers and weights; a solid block has none. Refused and Faulty as `read_sheet`.

    >>> spare_bits("4x4", bytes([0x42, 0, 0, 0xFE, 1, 1, 0, 0, 0, 0, 0, 0, 0, 0, 0, 0x80]))
    Spare(count=63, set=True)
    """
    return _read_symbolic(footprint, block)[1]


def _read_symbolic(footprint: FootprintLike, block: Bytes, strict: bool = False) -> Tuple[Sheet, Spare]:
    numbers, spare = (ctypes.c_uint16 * _SHEET_NUMBERS)(), (ctypes.c_uint16 * 2)()
    call = _library.STRICT_READ_SYMBOLIC if strict else _library.READ_SYMBOLIC
    number = call(Footprint.of(footprint), *_lent(block), numbers, _SHEET_NUMBERS, spare, 2)
    return _read(number, numbers, _SHEET), Spare(spare[0], spare[1] == 1)


def write_sheet(footprint: FootprintLike, sheet: Sheet) -> bytes:
    """The block of a sheet, with the smallest codes; fields that are not there are 0. Refused by 31 to 35, and by a fault's number.

    >>> write_sheet("4x4", {"void_extent": 1, "colours": [65535, 0, 0, 65535], "extents": [8191, 8191, 8191, 8191, 0, 0]}).hex()
    'fcfdffffffffffffffff00000000ffff'
    >>> write_sheet("4x4x4", {"void_extent": 1, "colours": [65535, 0, 0, 65535], "extents": [511] * 6}).hex()
    'fcfdffffffffffffffff00000000ffff'
    """
    numbers = (ctypes.c_uint16 * _SHEET_NUMBERS)(*_numbers(sheet, _SHEET, _SHEET_NUMBERS, 65535))
    block = _bytes(16)
    _told(_library.WRITE_SYMBOLIC(Footprint.of(footprint), numbers, _SHEET_NUMBERS, block, 16))
    return bytes(block)


def caption(dark: int, light: int, wanted: Bytes, width: int, height: int) -> Picture:
    """The 4x4 blocks between two greys that come nearest to a wanted grey, a byte, for each texel.

    >>> caption(0, 255, bytes([80] + [0] * 15), 4, 4).texel(0, 0).rgba
    (84, 84, 84, 255)
    """
    height, width, _ = _shape(width, height, 16384, 3)
    if not (0 <= dark <= 255 and 0 <= light <= 255):
        raise ValueError("a grey is from 0 to 255")
    blocks = _bytes(16 * -(-width // 4) * -(-height // 4))
    _told(_library.CAPTION_IMAGE(dark, light, width, height, *_lent(wanted), blocks, len(blocks)))
    return Picture(bytes(blocks), Footprint.F4X4, width, height)


def _shape(width: int, height: int, largest: int, refusal: int) -> Tuple[int, int, int]:
    """The shape of a picture's texels; sides that the call would refuse are refused before room is made."""
    width, height = operator.index(width), operator.index(height)
    if not (0 < width <= largest and 0 < height <= largest):
        raise Refused(refusal)
    return height, width, 4


def decode_bc7(blocks: Bytes, width: int, height: int) -> Decoded:
    """A picture of BC7 blocks, as `Picture.decode` in bytes. Refused by 3 and 4.

    >>> texels, tally = decode_bc7(bytes(16), 3, 1)
    >>> texels.tolist(), tally.first
    ([[[0, 0, 0, 0], [0, 0, 0, 0], [0, 0, 0, 0]]], FirstFault(block=0, fault=Fault(number=71)))
    """
    height, width, _ = shape = _shape(width, height, 16384, 3)
    texels, tally = _Texels(Kind.SRGB8, shape), (ctypes.c_uint64 * 3)()
    return _decoded(_library.BC7_DECODE_IMAGE(width, height, *_lent(blocks), texels.address, texels.count, tally, 3), texels, tally)


def read_bc7_sheet(block: Bytes) -> Bc7Sheet:
    """A BC7 block's fields. Refused by 4; Faulty (71) where the first byte is 0.

    >>> read_bc7_sheet(bytes([0x40] * 16))["mode"]
    6
    """
    numbers = _bytes(_BC7_NUMBERS)
    return _read(_library.BC7_READ_SYMBOLIC(*_lent(block), numbers, _BC7_NUMBERS), numbers, _BC7_SHEET)


def write_bc7_sheet(sheet: Bc7Sheet) -> bytes:
    """The BC7 block of a sheet; fields that are not there are 0. Refused by 72 and 73.

    >>> write_bc7_sheet(read_bc7_sheet(bytes([0x40] * 16))) == bytes([0x40] * 16)
    True
    """
    numbers = (ctypes.c_uint8 * _BC7_NUMBERS)(*_numbers(sheet, _BC7_SHEET, _BC7_NUMBERS, 255))
    block = _bytes(16)
    _told(_library.BC7_WRITE_SYMBOLIC(numbers, _BC7_NUMBERS, block, 16))
    return bytes(block)


def decode_pvrtc(words: Bytes, width: int, height: int) -> Array:
    """The texels of a PVRTC1 image of 4 bits per pixel, an array of bytes, height x width x 4. Refused by 61 (sides) and 4.

    >>> decode_pvrtc(bytes([3, 0, 0, 0, 0, 0x80, 0xFF, 0xFF]), 4, 4).tolist()[0][0]
    [255, 255, 255, 255]
    """
    height, width, _ = shape = _shape(width, height, 4096, 61)
    texels = _Texels(Kind.SRGB8, shape)
    _told(_library.PVRTC_DECODE_IMAGE(width, height, *_lent(words), texels.address, texels.count))
    return texels.array


class Clip:
    """A reader of clips: fed in pieces of any size, it gives each frame as its last byte arrives.

    >>> picture = Picture(bytes(32), "4x4", 5, 4)
    >>> clip = Clip()
    >>> frames = clip.feed(bytes([1]) + write_frame(picture, "srgb8") * 2 + b"cut")
    >>> [(frame.index, frame.picture == picture) for frame in frames]
    [(0, True), (1, True)]
    >>> clip.finish()
    Traceback (most recent call last):
    stallbrook.Refused: 53: the clip ends inside a frame or before its version byte
    """

    def __init__(self) -> None:
        self._state, self._blocks = (ctypes.c_uint32 * 26)(), bytearray()
        _told(_library.CLIP_START(self._state, 26))

    def feed(self, piece: Bytes) -> List[Frame]:
        """The frames that a piece completes. Refused by 51, 1, 2, 3 and 52, and then again until there is a new Clip; where the piece completes frames
        before that, it gives them, and the next call is refused."""
        data = piece if isinstance(piece, bytes) else memoryview(piece).tobytes()
        start = ctypes.cast(ctypes.c_char_p(data), ctypes.c_void_p).value or 0
        frames: List[Frame] = []
        at, number = 0, 0
        block, told = _bytes(16), (ctypes.c_uint64 * 8)()
        while True:
            number = _library.CLIP_FEED(self._state, 26, start + at, len(data) - at, block, 16, told, 8)
            taken, handed, index, place, footprint, kind, width, height = told
            at += taken
            if not handed:
                break
            self._blocks += bytes(block)
            columns, rows = Footprint(footprint).sides
            if place + 1 == -(-width // columns) * -(-height // rows):
                frames.append(Frame(index, Kind(kind), Picture(bytes(self._blocks), footprint, width, height)))
                self._blocks.clear()
        if not frames:
            _told(number)
        return frames

    def finish(self) -> None:
        """Says that the clip is finished. Refused by 53 inside a frame or before the version byte, and by what was told before."""
        _told(_library.CLIP_FINISH(self._state, 26))


def write_frame(picture: Picture, kind: KindLike = Kind.SRGB8) -> bytes:
    """The bytes of a clip's frame; a clip is the byte 1 and frames."""
    out = _bytes(10 + len(picture.blocks))
    footprint, width, height, blocks, length = picture._lent()
    _told(_library.CLIP_WRITE_FRAME(footprint, Kind.of(kind), width, height, blocks, length, out, len(out)))
    return bytes(out)
