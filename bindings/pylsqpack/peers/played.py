"""Plays corpora from an encoder of h3_qpack, or of ls-qpack, to a decoder of ls-qpack, by pylsqpack itself."""

import collections
import sys
from pathlib import Path

import h3_qpack
import pylsqpack

sys.path.insert(0, str(Path(__file__).resolve().parents[3] / "tests"))
from qif import read_lists  # pylint: disable=wrong-import-position # tests/qif.py

CAPACITIES = (220, 512, 1024, 4096, 16384, 65536)
LIMITS = (100, 0)


def part_lists(path):
    """Returns the names and the lists of the requests and of the responses of a corpus. Trailers go with the list before them."""
    requests, responses = [], []
    for fields in read_lists(path):
        if fields[0][0].startswith(b":"):
            kind = responses if fields[0][0] == b":status" else requests
        kind.append(fields)
    second = f"{path.stem} responses" if requests else path.stem
    return [(name, lists) for name, lists in ((path.stem, requests), (second, responses)) if lists]


class Ours:
    """An encoder of h3_qpack."""

    def __init__(self, capacity, limit):
        self.end = h3_qpack.Encoder()
        self.end.set_peer_settings(capacity, limit)
        self.end.set_capacity(capacity)

    def encode(self, stream, fields):
        """Returns the instructions of a list, and its section."""
        section = self.end.encode(stream, fields).section
        return self.end.take_encoder_stream(), section

    def receive(self, answer):
        self.end.receive(answer)


class Theirs:
    """An encoder of ls-qpack."""

    def __init__(self, capacity, limit):
        self.end = pylsqpack.Encoder()
        self.waiting = self.end.apply_settings(capacity, limit)

    def encode(self, stream, fields):
        """Returns the instructions of a list, and its section. Raises ValueError of a field that ls-qpack does not take."""
        instructions, section = self.end.encode(stream, fields)
        instructions, self.waiting = self.waiting + instructions, b""
        return instructions, section

    def receive(self, answer):
        self.end.feed_decoder(answer)


class Connection:
    """An encoder, and a decoder of ls-qpack, which answers some sections late."""

    def __init__(self, encoder, capacity, limit, late):
        self.encoder, self.decoder, self.late = encoder(capacity, limit), pylsqpack.Decoder(capacity, limit), late
        self.answers = collections.deque()
        self.waited = self.sent = 0

    def read(self, stream, section, instructions, comes_first):
        """Returns the answer of the decoder and the fields of a section, which may come before its instructions."""
        if not comes_first:
            self.decoder.feed_encoder(instructions)
            return self.decoder.feed_header(stream, section)
        try:
            answer = self.decoder.feed_header(stream, section)
        except pylsqpack.StreamBlocked:
            self.waited += 1
            assert self.decoder.feed_encoder(instructions) == [stream], "ls-qpack does not read on"
            return self.decoder.resume_header(stream)
        self.decoder.feed_encoder(instructions)
        return answer

    def exchange(self, number, fields, comes_first=False):
        """Sends a list, and compares what is read."""
        stream = 4 * number
        instructions, section = self.encoder.encode(stream, fields)
        self.sent += len(instructions) + len(section)
        answer, read = self.read(stream, section, instructions, comes_first)
        assert read == fields, f"ls-qpack reads {read}, and not {fields}"
        self.answers.append(answer)
        if len(self.answers) > self.late:
            self.encoder.receive(self.answers.popleft())
