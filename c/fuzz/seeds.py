#!/usr/bin/env python3
"""Makes inputs of the fuzz targets: fuzz/seeds.py decoder|encoder|frames FOLDER FILE..

For the decoder and for frames the files are recordings of an encoder, a line each: 'e' and bytes of the encoder stream, or 'b', a stream
and a section. Their names have the capacity: nghttp3_4096_16_ack.txt. For the encoder they are lists of fields, as QIF: a
name, a TAB and a value on a line, and an empty line after each list.
"""
import os
import re
import sys

CAPACITIES = [0, 31, 32, 64, 100, 256, 4096, 65536]
# A decoder's settings after the capacity: 16 streams may be blocked, and the limit on sections is 512 KB.
DECODER = bytes([16, 13])
# An encoder's: how many streams may be blocked, how many sections may wait, and that the settings are known at once.
ENCODERS = [bytes([6, 15, 31, 1]), bytes([6, 0, 31, 1]), bytes([5, 2, 4, 1]), bytes([6, 15, 31, 0])]
# An input has at most so many bytes. Those of an encoder take longer.
MOST, MOST_OF_ENCODER = 8192, 2048
# Calls of an encoder's input, as `run` reads them: the instructions arrive, a section is decoded, the answers arrive, the
# settings arrive.
DELIVER, DECODE, HEAR, SETTINGS = 2, 3, 5, 0x16


def decoder_inputs(path):
    """Yields inputs of the front of a recording, with its bytes whole and in pieces."""
    capacity = int(re.search(r"_(\d+)_", os.path.basename(path))[1])
    head = bytes([CAPACITIES.index(capacity)]) + DECODER
    for piece in (None, 7):
        calls = head
        with open(path, encoding="ascii") as lines:
            for number, line in enumerate(lines):
                calls += call_of(line.rstrip("\n").split("\t"), number, piece)
                if len(calls) > MOST:
                    break
                if number in (3, 20):
                    yield calls
        yield calls[:MOST]


def call_of(words, number, piece):
    """Returns the calls of a line of a recording."""
    data = bytes.fromhex(words[-1])
    if words[0] == "b":
        return bytes([0x82 | number % 32 << 2]) + len(data).to_bytes(2, "big") + data
    if words[0] != "e":
        return b""
    pieces = [data[at : at + piece] for at in range(0, len(data), piece)] if piece else [data]
    return b"".join(b"\x00" + len(part).to_bytes(2, "big") + part for part in pieces)


def encoder_inputs(path):
    """Yields inputs of the front of lists, each decoded at once, or four lists late."""
    with open(path, "rb") as file:
        lists = [it.split(b"\n") for it in file.read().strip(b"\n").split(b"\n\n")]
    for head in ENCODERS:
        for late in (0, 4):
            calls = head
            for number, fields in enumerate(lists):
                calls += encode_of(fields, number) + bytes([DELIVER])
                if number >= late:
                    calls += bytes([DECODE | (number - late) % 32 << 3, HEAR])
                if number == 2:
                    calls += bytes([SETTINGS])
                if len(calls) > MOST_OF_ENCODER:
                    break
            yield calls[:MOST_OF_ENCODER]


def encode_of(fields, number):
    """Returns the call that encodes the first of these fields."""
    texts = [line.split(b"\t", 1) for line in fields[:16]]
    call = bytes([number % 32 << 3, len(texts)])
    for name, value in texts:
        call += b"\x00" + string_of(name) + string_of(value)
    return call + b"\x00"


def string_of(text):
    """Returns a string as `read_string` reads it, of at most 63 bytes."""
    text = text[:63]
    return bytes([0x80 | len(text)]) + text


def frames_inputs(path):
    """Yields streams of the sections of a recording: each in a HEADERS frame, with frames of other types after it."""
    with open(path, encoding="ascii") as lines:
        words = [line.rstrip("\n").split("\t") for line in lines]
    stream = b""
    for number, section in enumerate(bytes.fromhex(it[-1]) for it in words if it[0] == "b"):
        stream += frame_of(1, section) + frame_of(0, section[: number % 64]) + frame_of(0x21 + 0x1F * number, b"")
        if number in (0, 3, 20):
            for most_kept, piece in ((255, 0), (255, 1), (16, 7)):
                yield (bytes([most_kept, piece]) + stream)[:MOST]


def frame_of(kind, payload):
    """Returns a frame (RFC 9114, section 7.1), its integers in four bytes."""
    return b"".join((0x80000000 | it).to_bytes(4, "big") for it in (kind, len(payload))) + payload


def main():
    target, folder, files = sys.argv[1], sys.argv[2], sys.argv[3:]
    inputs_of = {"decoder": decoder_inputs, "encoder": encoder_inputs, "frames": frames_inputs}[target]
    for path in files:
        for number, data in enumerate(inputs_of(path)):
            with open(f"{folder}/{os.path.basename(path)}.{number}", "wb") as file:
                file.write(data)


main()
