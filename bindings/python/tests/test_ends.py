"""Both ends of a connection: round trips, blocked and cancelled streams, tables, refusals."""

import contextlib
import ctypes
import gc
import resource
import threading
import unittest
from pathlib import Path
from typing import Any, Callable, Iterator, List, Tuple, Type

from h3_qpack import (
    Decoder,
    DecoderStreamError,
    DecompressionFailed,
    Encoder,
    EncoderStreamError,
    EndClosed,
    EntriesHeld,
    Field,
    FieldLike,
    InvalidArgument,
    OutOfMemory,
    Prefix,
    QpackConnectionError,
    QpackError,
    SectionReader,
    SectionTooLarge,
    SettingsError,
    StreamBlocked,
    Wish,
    decode_stateless,
    encode_stateless,
    library_version,
    longest_section,
)

REQUEST = [
    Field(b":method", b"GET"),
    Field(b"user-agent", b"curl/8"),
    Field(b"authorization", b"Basic Og==", never_indexed=True),
    Field(b"x-trace", b"\xff\x00"),
]
METHOD = b"\x00\x00\xd1"


MEGABYTE = 1 << 20


@contextlib.contextmanager
def little_memory() -> Iterator[None]:
    """Lets the process have four megabytes more than it has."""
    limits = resource.getrlimit(resource.RLIMIT_AS)
    pages = int(Path("/proc/self/statm").read_text().split()[0])
    resource.setrlimit(resource.RLIMIT_AS, (pages * resource.getpagesize() + 4 * MEGABYTE, limits[1]))
    try:
        yield
    finally:
        resource.setrlimit(resource.RLIMIT_AS, limits)


class EndsTest(unittest.TestCase):
    def pair(self, capacity: int = 4096, blocked: int = 16) -> Tuple[Encoder, Decoder]:
        """Makes an encoder, and the decoder of its peer. They are closed after the test."""
        encoder = Encoder(max_capacity=capacity, max_blocked=blocked)
        decoder = Decoder(max_capacity=capacity, max_blocked=blocked)
        self.addCleanup(encoder.close)
        self.addCleanup(decoder.close)
        return encoder, decoder

    def refused(self, error: Type[Exception], call: Callable[..., Any], *words: Any) -> Any:
        """Returns the error that a call must raise."""
        with self.assertRaises(error) as caught:
            call(*words)
        return caught.exception

    def receive_cut(self, receive: Callable[[bytes], None], stream: bytes) -> None:
        """Has an end receive a stream byte by byte."""
        for at in range(len(stream)):
            receive(stream[at : at + 1])

    def test_round_trip(self) -> None:
        encoder, decoder = self.pair()
        for stream_id in (0, 4, 2**62 - 1):
            encoded = encoder.encode(stream_id, REQUEST)
            self.assertEqual(encoded.size, 10 + 16 + 23 + 9 + 4 * 32)
            self.assertGreater(encoded.required, 0)
            self.receive_cut(decoder.receive, encoder.take_encoder_stream())
            self.assertEqual(decoder.decode(stream_id, encoded.section), REQUEST)
            self.receive_cut(encoder.receive, decoder.take_decoder_stream())
        self.assertGreater(encoder.insert_count, 0)
        self.assertEqual(encoder.insert_count, decoder.insert_count)
        self.assertEqual(encoder.insert_count, encoder.known_received_count)
        self.assertEqual(encoder.unacknowledged, 0)

    def test_fields_as_tuples_and_sections_as_buffers(self) -> None:
        encoder, decoder = self.pair()
        encoded = encoder.encode(0, ((it.name, it.value, it.never_indexed) for it in REQUEST))
        decoder.receive(bytearray(encoder.take_encoder_stream()))
        self.assertEqual(decoder.decode(0, memoryview(encoded.section)), REQUEST)
        for wrong in (("x", b"y"), (b"x", "y"), (bytearray(b"x"), b"y"), (5, b"y"), (b"x",)):
            self.refused(TypeError, encoder.encode, 0, [wrong])
        self.refused(TypeError, decoder.decode, 0, "text")
        self.refused(TypeError, decoder.receive, 5)

    def test_tables(self) -> None:
        encoder, decoder = self.pair()
        self.assertEqual((encoder.capacity, decoder.capacity), (0, 0))
        encoder.encode(0, [(b"foo", b"bar"), (b"trace", b"17")])
        decoder.receive(encoder.take_encoder_stream())
        for end in (encoder, decoder):
            self.assertEqual(end.entries(), [Field(b"trace", b"17"), Field(b"foo", b"bar")])
            self.assertEqual((end.table_size, end.capacity), (13 + 2 * 32, 4096))

    def test_peer_settings(self) -> None:
        encoder, (_, decoder) = self.pair(0, 0)[0], self.pair()
        fields = [Field(b"foo", b"bar")]
        early = encoder.encode(0, fields)
        self.assertEqual((early.required, encoder.take_encoder_stream()), (0, b""))
        self.assertEqual(decoder.decode(0, early.section), fields)
        for wrong in ((1 << 30, 16), (-1, 0), (0, 1 << 62)):
            self.refused(InvalidArgument, encoder.set_peer_settings, *wrong)
        encoder.set_peer_settings(4096, 16)
        late = encoder.encode(4, fields)
        self.assertEqual((late.required, encoder.capacity), (1, 4096))
        decoder.receive(encoder.take_encoder_stream())
        self.assertEqual(decoder.decode(4, late.section), fields)
        self.assertEqual(self.refused(SettingsError, encoder.set_peer_settings, 4096, 15).code, 0x109)
        self.refused(SettingsError, encoder.set_capacity, 0)
        self.refused(DecoderStreamError, self.pair()[0].set_peer_settings, 0, 16)

    def test_wishes(self) -> None:
        encoder, _ = self.pair()
        fields = [Field(b"foo", b"bar", wish=Wish.REUSE), Field(b"foo", b"baz", True, Wish.INSERT)]
        self.assertEqual((encoder.encode(0, fields).required, encoder.insert_count), (0, 0))
        long = Field(b"foo", 1500 * b"x")
        encoder.encode(0, [long._replace(wish=Wish.INSERT)])
        self.assertEqual(encoder.entries(), [long])

    def test_blocked(self) -> None:
        encoder, decoder = self.pair()
        encoded = encoder.encode(8, REQUEST)
        self.assertEqual((encoder.blocked, encoder.unacknowledged), (1, 1))
        blocked = self.refused(StreamBlocked, decoder.decode, 8, encoded.section)
        self.assertEqual((blocked.required, decoder.blocked), (encoded.required, 1))
        self.assertNotIsInstance(blocked, QpackConnectionError)
        self.assertIsNone(decoder.next_ready())
        decoder.receive(encoder.take_encoder_stream())
        self.assertEqual(decoder.next_ready(), 8)
        self.assertEqual(decoder.decode(8, encoded.section), REQUEST)
        self.assertIsNone(decoder.next_ready())
        encoder.receive(decoder.take_decoder_stream())
        self.assertEqual((encoder.blocked, decoder.blocked), (0, 0))

    def test_peek_prefix(self) -> None:
        encoder, decoder = self.pair()
        encoded = encoder.encode(8, REQUEST)
        peeked = decoder.peek_prefix(encoded.section)
        self.assertEqual((peeked.required, peeked.length, peeked.blocked), (encoded.required, 2, True))
        self.assertEqual(decoder.peek_prefix(encoded.section[:2]), peeked)
        self.assertEqual((decoder.blocked, decoder.take_decoder_stream()), (0, b""))
        decoder.receive(encoder.take_encoder_stream())
        self.assertEqual(decoder.peek_prefix(encoded.section), peeked._replace(blocked=False))
        self.assertEqual(decoder.peek_prefix(b"\x02\x80"), Prefix(1, 0, 2, False))
        self.assertEqual(decoder.peek_prefix(b"\x00\x00\xd1"), Prefix(0, 0, 2, False))
        for section in (b"", b"\x02", b"\x00\x80"):
            self.refused(DecompressionFailed, decoder.peek_prefix, section)
        self.assertEqual(decoder.decode(8, encoded.section), REQUEST)

    def test_cancel(self) -> None:
        encoder, decoder = self.pair()
        self.refused(StreamBlocked, decoder.decode, 8, encoder.encode(8, REQUEST).section)
        decoder.cancel_stream(8)
        self.assertEqual(decoder.take_decoder_stream(), b"\x48")
        decoder.receive(encoder.take_encoder_stream())
        self.assertIsNone(decoder.next_ready())
        encoder.receive(b"\x48")
        self.assertEqual((encoder.unacknowledged, decoder.blocked), (0, 0))

    def test_too_large(self) -> None:
        with Decoder(max_section_size=50) as decoder:
            error = self.refused(SectionTooLarge, decoder.decode, 0, METHOD + METHOD[2:])
            self.assertEqual((error.number, error.offset), (2, 3))
            self.assertIn("the section is too large, at line 2, byte 3: ", str(error))
            decoder.cancel_stream(0)
            self.assertEqual(decoder.decode(4, METHOD), REQUEST[:1])

    def test_the_longest_section(self) -> None:
        decoder = Decoder(max_section_size=50)
        longest = METHOD.ljust(longest_section(50), b"\x00")
        self.assertEqual([longest_section(it) for it in (0, 50, 65536)], [20, 220, 262164])
        self.refused(SectionTooLarge, decoder.decode, 0, longest + b"\x00")
        self.refused(DecompressionFailed, decoder.decode, 0, longest)  # a line of it is wrong, and so it was read

    def test_default_limit(self) -> None:
        encoder, decoder = self.pair(0, 0)
        encoded = encoder.encode(0, [(b"x", 65536 * b"y")])
        self.refused(SectionTooLarge, decoder.decode, 0, encoded.section)
        with Decoder(max_section_size=2**64 - 1) as unlimited:
            self.assertEqual(len(unlimited.decode(0, encoded.section)), 1)

    def test_an_invalid_section(self) -> None:
        _, decoder = self.pair()
        error = self.refused(DecompressionFailed, decoder.decode, 0, METHOD + b"\xff\x3f")
        self.assertEqual((error.code, error.number, error.offset), (0x200, 2, 3))
        self.assertEqual(str(error), "a section is invalid, at line 2, byte 3: close the connection with 0x200")
        self.assertIsInstance(error, QpackConnectionError)
        self.refused(DecompressionFailed, decoder.receive, b"\x20")
        self.refused(DecompressionFailed, decoder.cancel_stream, 0)

    def test_an_invalid_encoder_stream(self) -> None:
        _, decoder = self.pair()
        error = self.refused(EncoderStreamError, decoder.receive, b"\x3f\xe1\x1f\x02")
        self.assertEqual((error.code, error.number, error.offset), (0x201, 2, 3))
        self.assertEqual(self.refused(EncoderStreamError, decoder.decode, 0, METHOD).code, 0x201)

    def test_an_invalid_decoder_stream(self) -> None:
        encoder, _ = self.pair()
        error = self.refused(DecoderStreamError, encoder.receive, b"\x44\x84")
        self.assertEqual((error.code, error.number, error.offset), (0x202, 2, 1))
        self.assertIn("at instruction 2, byte 1", str(error))
        self.refused(DecoderStreamError, encoder.encode, 0, REQUEST)

    def test_capacity(self) -> None:
        encoder, decoder = self.pair()
        encoder.set_capacity(100)
        encoded = encoder.encode(0, [(b"foo", b"bar")])
        self.assertEqual(encoder.capacity, 100)
        self.refused(InvalidArgument, encoder.set_capacity, 4097)
        self.refused(EntriesHeld, encoder.set_capacity, 0)
        decoder.receive(encoder.take_encoder_stream())
        decoder.decode(0, encoded.section)
        encoder.receive(decoder.take_decoder_stream())
        encoder.set_capacity(0)
        self.assertEqual(encoder.entries(), [])

    def test_shrink(self) -> None:
        encoder, decoder = self.pair()
        first = encoder.encode(0, [(b"foo", b"bar")])
        self.refused(InvalidArgument, encoder.shrink, 4097)
        self.assertIsNone(encoder.pending_capacity)
        encoder.shrink(33)
        self.assertEqual(encoder.pending_capacity, 33)
        waiting = encoder.encode(4, [(b"foo", b"bar")])
        self.assertEqual((waiting.required, encoder.unacknowledged), (0, 1))
        decoder.receive(encoder.take_encoder_stream())
        self.assertEqual(decoder.decode(4, waiting.section), decoder.decode(0, first.section))
        encoder.receive(decoder.take_decoder_stream())
        encoder.encode(8, [(b"foo", b"bar")])
        self.assertEqual((encoder.pending_capacity, encoder.capacity), (None, 33))
        decoder.receive(encoder.take_encoder_stream())
        self.assertEqual(decoder.capacity, 33)

    def test_settings(self) -> None:
        with Encoder(max_capacity=4096, max_blocked=16, capacity=76, most_unacknowledged=1) as encoder:
            self.assertEqual(encoder.encode(0, [(b"foo", b"bar")]).required, 1)
            self.assertEqual(encoder.encode(4, [(b"foo", b"bar")]).required, 0)
            self.assertEqual((encoder.capacity, encoder.unacknowledged), (76, 1))
        with Encoder(max_capacity=4096, max_blocked=16, capacity=0) as encoder:
            self.assertEqual(encoder.encode(0, REQUEST).required, 0)

    def test_seed(self) -> None:
        written = []
        for seed in (None, 0, 2**64 - 1):
            with Encoder(max_capacity=4096, max_blocked=16, seed=seed) as encoder:
                written.append([encoder.encode(stream, REQUEST).section for stream in (0, 4, 8)])
        self.assertEqual(written[0], written[1])
        self.assertEqual(written[1], written[2])
        self.refused(InvalidArgument, lambda: Encoder(seed=2**64))

    def test_out_of_range(self) -> None:
        for number in (2**30, -1, 2**64):
            self.refused(InvalidArgument, lambda: Encoder(max_capacity=number))
            self.refused(InvalidArgument, lambda: Decoder(max_capacity=number))
        self.refused(InvalidArgument, lambda: Decoder(max_blocked=65535))
        encoder, decoder = self.pair()
        for number in (2**62, 2**64, -1):
            self.refused(InvalidArgument, encoder.encode, number, REQUEST)
            self.refused(InvalidArgument, decoder.decode, number, METHOD)
            self.refused(InvalidArgument, decoder.cancel_stream, number)
            self.refused(InvalidArgument, encoder.set_capacity, number)
            self.refused(InvalidArgument, encoder.shrink, number)
        self.assertIsInstance(self.refused(QpackError, encoder.encode, -1, REQUEST), ValueError)

    def test_closed(self) -> None:
        encoder, decoder = self.pair()
        with encoder, decoder:
            self.assertFalse(encoder.closed or decoder.closed)
        encoder.close()
        decoder.close()
        self.assertTrue(encoder.closed and decoder.closed)
        for call in (
            lambda: encoder.encode(0, REQUEST),
            lambda: encoder.receive(b"\x44"),
            lambda: encoder.set_capacity(0),
            lambda: encoder.shrink(0),
            lambda: encoder.pending_capacity,
            encoder.take_encoder_stream,
            encoder.entries,
            lambda: decoder.decode(0, METHOD),
            lambda: decoder.receive(b"\x20"),
            lambda: decoder.cancel_stream(0),
            decoder.next_ready,
            decoder.take_decoder_stream,
            lambda: decoder.insert_count,
        ):
            self.assertIsInstance(self.refused(EndClosed, call), ValueError)

    def test_empty_fields(self) -> None:
        encoder, decoder = self.pair()
        lists: List[List[FieldLike]] = [[], [(b"", b"")], [(b"x", b""), (b"", b"y"), (b"x", b"", True)]]
        for fields in lists:
            encoded = encoder.encode(0, fields)
            decoder.receive(encoder.take_encoder_stream())
            self.assertEqual(decoder.decode(0, encoded.section), [Field(*it) for it in fields])
        decoder.receive(b"")
        encoder.receive(b"")
        self.refused(DecompressionFailed, decoder.decode, 0, b"")

    def test_large_fields(self) -> None:
        encoder, decoder = self.pair(0, 0)
        fields = [Field(b"long", 1500 * b"\xff", True)] + 40 * [Field(b"x", b"\x00")]
        encoded = encoder.encode(0, fields)
        self.assertGreater(len(encoded.section), 1500)
        self.assertEqual(decoder.decode(0, encoded.section), fields)

    def test_out_of_memory(self) -> None:
        most = 2**30 - 1
        fields = [Field(b"x", 16 * MEGABYTE * b"a", wish=Wish.INSERT)]
        with Encoder(max_capacity=most, max_blocked=1, capacity=most) as encoder:
            with little_memory():
                self.refused(OutOfMemory, encoder.encode, 0, fields)
            encoded, stream = encoder.encode(0, fields), encoder.take_encoder_stream()
        self.assertEqual(encoded.required, 1)
        with Decoder(max_capacity=most, max_section_size=2**64 - 1) as decoder:
            with little_memory():
                taken = self.refused(OutOfMemory, decoder.receive, stream).taken
            self.assertGreater(taken, 0)
            decoder.receive(stream[taken:])
            with little_memory():
                self.refused(OutOfMemory, decoder.decode, 0, encoded.section)
            self.assertEqual(decoder.decode(0, encoded.section), [fields[0]._replace(wish=Wish.NONE)])

    def test_types(self) -> None:
        """Lengths that vary make no types: ctypes takes longer for one than for a call."""
        encoder, decoder = self.pair()
        gc.collect()
        gc.disable()  # it would collect types that were made
        self.addCleanup(gc.enable)
        before = len(ctypes.Array.__subclasses__())
        for size in range(1, 600):
            fields = [Field(b"x", b"y" * size), *[Field(b"n", b"%d" % it) for it in range(size % 40)]]
            encoded = encoder.encode(4 * size, fields)
            decoder.receive(encoder.take_encoder_stream())
            self.assertEqual(decoder.decode(4 * size, encoded.section), fields)
            encoder.receive(decoder.take_decoder_stream())
            self.assertEqual(decode_stateless(encode_stateless(fields)), fields)
        made = len(ctypes.Array.__subclasses__()) - before
        self.assertLessEqual(made, 40)

    def test_threads(self) -> None:
        encoder, decoder = self.pair(0, 0)
        failed = []

        def work(stream_id: int) -> None:
            for number in range(200):
                fields = [Field(b"x-%d" % stream_id, b"%d" % number, True)]
                if decoder.decode(stream_id, encoder.encode(stream_id, fields).section) != fields:
                    failed.append((stream_id, number))

        threads = [threading.Thread(target=work, args=(it,)) for it in range(4)]
        for it in threads:
            it.start()
        for it in threads:
            it.join()
        self.assertEqual(failed, [])

    def test_an_end_that_is_not_closed(self) -> None:
        closed = []

        class Watched(Encoder):
            def close(self) -> None:
                super().close()
                closed.append(self.closed)

        Watched(max_capacity=4096).encode(0, REQUEST)
        gc.collect()
        self.assertEqual(closed, [True])

    def test_the_version(self) -> None:
        self.assertEqual(library_version(), (0, 2))

    def read_pieces(self, reader: SectionReader, decoder: Decoder, section: bytes, size: int) -> List[Field]:
        """Reads a section in pieces of a size."""
        fields: List[Field] = []
        for at in range(0, max(len(section), 1), size):
            last = at + size >= len(section)
            pieces = reader.read(decoder, section[at : at + size], last)
            fields += pieces.fields
            self.assertEqual(pieces.ended, last)
        self.assertEqual(reader.pending, 0)
        return fields

    def test_sections_in_pieces(self) -> None:
        fields = [*REQUEST, Field(b"x-long", b"v" * 5000), *[Field(b"x", b"y")] * 70]
        for size in 1, 7, 65536:
            encoder, decoder = self.pair()
            for stream_id in 0, 4, 8:
                with SectionReader(stream_id) as reader:
                    section, required = encoder.encode(stream_id, fields)[:2]
                    if required > decoder.insert_count:
                        with self.assertRaises(StreamBlocked) as blocked:
                            reader.read(decoder, section)
                        self.assertEqual((blocked.exception.required, decoder.blocked), (required, 1))
                        section = section[blocked.exception.taken :]
                    decoder.receive(encoder.take_encoder_stream())
                    self.assertEqual(self.read_pieces(reader, decoder, section, size), fields)
                    encoder.receive(decoder.take_decoder_stream())
                self.assertTrue(reader.closed)
                self.refused(EndClosed, reader.read, decoder, b"")
        self.refused(InvalidArgument, SectionReader, 1 << 62)
        with Decoder() as decoder, SectionReader(0) as reader:
            self.assertEqual(reader.read(decoder, b"\x00").fields, [])
            self.assertEqual(reader.pending, 1)
            refusal = self.refused(DecompressionFailed, reader.read, decoder, b"\x00\xd1\xff", True)
            self.assertEqual((refusal.number, refusal.offset), (2, 3))


if __name__ == "__main__":
    unittest.main()
