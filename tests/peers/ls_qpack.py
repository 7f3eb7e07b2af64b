#!/usr/bin/env python3
"""Has the decoder of ls-qpack read the recordings of this folder that are about it, by pylsqpack.

    python3 tests/peers/ls_qpack.py     # needs the package pylsqpack, of Debian or of pip

It prints what each gives: fields, or the error.
"""
from pathlib import Path

import pylsqpack

FOLDER = Path(__file__).resolve().parent


def read(path):
    """Returns what the decoder makes of a recording: the fields of its sections, or an error."""
    decoder, fields = None, []
    for line in path.read_text(encoding="ascii").splitlines():
        kind, *words = line.split()
        if kind == "s":
            decoder = pylsqpack.Decoder(*map(int, words))
        elif kind == "e":
            decoder.feed_encoder(bytes.fromhex(words[0]))
        elif kind == "b":
            fields += decoder.feed_header(int(words[0]), bytes.fromhex(words[1]))[1]
    return fields


def main():
    for path in sorted(FOLDER.glob("ls_qpack-*.txt")):
        try:
            print(f"{path.name}: fields {read(path)}")
        except (pylsqpack.DecompressionFailed, pylsqpack.EncoderStreamError, pylsqpack.StreamBlocked) as error:
            print(f"{path.name}: {type(error).__name__}")


if __name__ == "__main__":
    main()
