"""How the library is found, and how its structs are laid out."""

import ctypes
import os
import subprocess
import sys
import unittest
from pathlib import Path
from typing import Dict, Type

import h3_qpack
from h3_qpack import _errors, _library

# The layout of the structs, which the tests in C hold the header to. It is in the repository alone.
LAYOUT = Path(__file__).resolve().parents[3] / "c/tests/layout.txt"
STRUCTS: Dict[str, Type[ctypes.Structure]] = {
    "nv": _library.Nv,
    "encoder": _library.End,
    "decoder": _library.End,
    "section_reader": _library.End,
    "field": _library.CopiedField,
    "encoded": _library.Encoded,
    "written": _library.Written,
    "received": _library.Received,
    "prefix": _library.Prefix,
    "decoded_alone": _library.DecodedAlone,
    "decoded": _library.Decoded,
    "pieces": _library.Pieces,
    "encoder_settings": _library.EncoderSettings,
    "decoder_settings": _library.DecoderSettings,
}
# Those of calls that Python does not use.
UNUSED = ("h3_qpack_piece", "h3_qpack_view", "h3q_view")


def import_with(library: str) -> str:
    """Returns the last line of what an import of the package says, over a library."""
    package = str(Path(h3_qpack.__file__).resolve().parents[1])
    environment = {**os.environ, "PYTHONPATH": package, _library.VARIABLE: library}
    command = [sys.executable, "-c", "import h3_qpack"]
    said = subprocess.run(command, env=environment, stderr=subprocess.PIPE, universal_newlines=True, check=False)
    return said.stderr.strip().splitlines()[-1] if said.returncode else ""


class LibraryTest(unittest.TestCase):
    @unittest.skipUnless(LAYOUT.is_file(), "the layout is in the repository alone")
    def test_the_layout_of_the_structs(self) -> None:
        rows = [line.split() for line in LAYOUT.read_text().splitlines()]
        for name, field, offset, size in rows:
            if name in UNUSED:
                continue
            struct = STRUCTS[name[len("h3_qpack_") :]]
            if field == "-":
                self.assertEqual(ctypes.sizeof(struct), int(size), name)
                self.assertEqual([it[0] for it in struct._fields_], [it[1] for it in rows if it[0] == name][1:])
            else:
                place = getattr(struct, field)
                self.assertEqual((place.offset, place.size), (int(offset), int(size)), f"{name} {field}")

    def test_a_library_that_is_not_one(self) -> None:
        self.assertEqual(import_with(_library.find_library()), "")
        for wrong in ("/nowhere/libh3_qpack.so.0", __file__):
            said = import_with(wrong)
            self.assertIn(f"ImportError: h3_qpack: {wrong} is not the library", said)
            self.assertIn(f"Correct {_library.VARIABLE}", said)

    def test_each_status_has_an_error(self) -> None:
        for status, error in (
            (_library.NO_MEMORY, h3_qpack.OutOfMemory),
            (_library.INVALID, h3_qpack.InvalidArgument),
            (_library.HELD, h3_qpack.EntriesHeld),
            (_library.VERSION_MISMATCH, h3_qpack.VersionMismatch),
            (-99, h3_qpack.QpackError),
        ):
            with self.assertRaises(error):
                _errors.check(status)
        with self.assertRaises(h3_qpack.OutOfMemory) as caught:
            _errors.check(_library.NO_MEMORY, result=_library.Received(_library.NO_MEMORY, 7))
        self.assertEqual(caught.exception.taken, 7)
        _errors.check(_library.OK)
