"""The shared library: where it is found, and its calls. stallbrook.h says what each takes, answers and leaves."""

from __future__ import annotations

import ctypes
import ctypes.util
import os
import pathlib
from typing import Any, Iterator

from ._version import VERSION

NAME = "libstallbrook.so"
SONAME = NAME + "." + VERSION.rpartition(".")[0]


def _places() -> Iterator[str]:
    """Where the library may be, the first that is there being taken; STALLBROOK_LIB alone where it is set."""
    named = os.environ.get("STALLBROOK_LIB")
    if named:
        yield os.path.join(named, NAME) if os.path.isdir(named) else named
        return
    here = pathlib.Path(__file__).resolve()
    yield str(here.with_name(SONAME))
    yield str(here.with_name(NAME))
    if len(here.parents) > 3:
        yield str(here.parents[3] / "target" / "staticlib" / NAME)
    yield SONAME
    found = ctypes.util.find_library("stallbrook")
    if found:
        yield found


def _load() -> ctypes.CDLL:
    tried = []
    for place in _places():
        try:
            library = ctypes.CDLL(place)
        except OSError as error:
            tried.append(str(error))
            continue
        library.stallbrook_version.restype = ctypes.c_char_p
        version = library.stallbrook_version().decode()
        if version.split(".")[:2] != VERSION.split(".")[:2]:
            raise ImportError(f"{place} is version {version}, which this package, {VERSION}, does not fit")
        return library
    raise ImportError("libstallbrook.so is not found; set STALLBROOK_LIB to its folder: " + "; ".join(tried))


LIBRARY = _load()
LIBRARY.stallbrook_text.restype = ctypes.c_char_p
LIBRARY.stallbrook_text.argtypes = [ctypes.c_uint8]

BYTE, SIDE, LIST = ctypes.c_uint8, ctypes.c_uint32, (ctypes.c_void_p, ctypes.c_size_t)


def _call(name: str, *types: Any) -> Any:
    """A call that answers a number; a list crosses as address and length."""
    call = getattr(LIBRARY, "stallbrook_" + name)
    call.restype = ctypes.c_uint8
    call.argtypes = [part for kind in types for part in (kind if isinstance(kind, tuple) else (kind,))]
    return call


KINDS = ("unorm16", "srgb8", "float16")
DECODE_BLOCK = [_call("astc_decode_block_" + kind, BYTE, LIST, LIST) for kind in KINDS]
DECODE_IMAGE = [_call("astc_decode_image_" + kind, BYTE, SIDE, SIDE, LIST, LIST, LIST) for kind in KINDS]
DECODE_VOLUME = [_call("astc_decode_volume_" + kind, BYTE, SIDE, SIDE, SIDE, LIST, LIST, LIST) for kind in KINDS]
STRICT_DECODE_BLOCK = [_call("astc_strict_decode_block_" + kind, BYTE, LIST, LIST) for kind in KINDS]
STRICT_DECODE_IMAGE = [_call("astc_strict_decode_image_" + kind, BYTE, SIDE, SIDE, LIST, LIST, LIST) for kind in KINDS]
STRICT_DECODE_VOLUME = [_call("astc_strict_decode_volume_" + kind, BYTE, SIDE, SIDE, SIDE, LIST, LIST, LIST) for kind in KINDS]
VOLUME_BLOCKS = _call("astc_volume_blocks", BYTE, SIDE, SIDE, SIDE)
VOLUME_BLOCKS.restype = ctypes.c_uint64
STRICT_IMAGE_FAULTS = _call("astc_strict_image_faults", BYTE, BYTE, SIDE, SIDE, LIST, LIST, LIST)
STRICT_READ_SYMBOLIC = _call("astc_strict_read_symbolic", BYTE, LIST, LIST, LIST)
CANONICAL_IMAGE = _call("astc_canonical_image", BYTE, SIDE, SIDE, LIST, LIST, LIST)
TEXEL = [_call("astc_texel_" + kind, BYTE, SIDE, SIDE, LIST, SIDE, SIDE, LIST) for kind in KINDS]
IMAGE_FAULTS = _call("astc_image_faults", BYTE, BYTE, SIDE, SIDE, LIST, LIST, LIST)
VIEW_REFUSAL = _call("astc_view_refusal", BYTE, SIDE, SIDE, LIST)
READ_SYMBOLIC = _call("astc_read_symbolic", BYTE, LIST, LIST, LIST)
WRITE_SYMBOLIC = _call("astc_write_symbolic", BYTE, LIST, LIST)
READ_HEADER = _call("astc_read_header", LIST, LIST)
WRITE_HEADER = _call("astc_write_header", BYTE, SIDE, SIDE, LIST)
CAPTION_IMAGE = _call("astc_caption_image", BYTE, BYTE, SIDE, SIDE, LIST, LIST)
PVRTC_DECODE_IMAGE = _call("pvrtc_decode_image", SIDE, SIDE, LIST, LIST)
BC7_DECODE_IMAGE = _call("bc7_decode_image", SIDE, SIDE, LIST, LIST, LIST)
BC7_READ_SYMBOLIC = _call("bc7_read_symbolic", LIST, LIST)
BC7_WRITE_SYMBOLIC = _call("bc7_write_symbolic", LIST, LIST)
CLIP_START = _call("clip_start", LIST)
CLIP_FEED = _call("clip_feed", LIST, LIST, LIST, LIST)
CLIP_FINISH = _call("clip_finish", LIST)
CLIP_WRITE_FRAME = _call("clip_write_frame", BYTE, BYTE, SIDE, SIDE, LIST, LIST)


def text(number: int) -> str:
    """The library's English sentence of a refusal or fault."""
    return LIBRARY.stallbrook_text(number).decode()
