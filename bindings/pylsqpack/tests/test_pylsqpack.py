"""Each call of the interface, and each error."""

import doctest
import unittest
from typing import Any, Callable, List, Tuple, Type
from unittest import mock

import h3_qpack
import pylsqpack
from pylsqpack import Decoder, DecoderStreamError, DecompressionFailed, Encoder, EncoderStreamError, StreamBlocked

Headers = List[Tuple[bytes, bytes]]

REQUEST: Headers = [(b":method", b"GET"), (b"user-agent", b"curl/8"), (b"x-trace", b"\xff\x00"), (b"empty", b"")]
OTHER: Headers = [(b":method", b"GET"), (b"user-agent", b"curl/9")]
# A section that requires the first insertion, whose second line has an index that the static table does not have.
INVALID_LATER = bytes.fromhex("020080ffff00")


def load_tests(_loader: unittest.TestLoader, tests: unittest.TestSuite, _pattern: object) -> unittest.TestSuite:
    """Adds the examples of the docstrings."""
    tests.addTests(doctest.DocTestSuite(pylsqpack))
    return tests


class PylsqpackTest(unittest.TestCase):
    def pair(self, capacity: int = 4096, blocked: int = 16) -> Tuple[Encoder, Decoder, bytes]:
        """Makes an encoder, the decoder of its peer, and the first bytes of the encoder stream."""
        encoder = Encoder()
        return encoder, Decoder(capacity, blocked), encoder.apply_settings(capacity, blocked)

    def refused(self, error: Type[Exception], text: str, call: Callable[..., Any], *words: Any) -> BaseException:
        """Has a call raise exactly this error with this text. Returns it."""
        with self.assertRaises(error) as caught:
            call(*words)
        self.assertIs(type(caught.exception), error)
        self.assertEqual(str(caught.exception), text)
        return caught.exception

    def refused_over(self, cause: Type[Exception], *expected: Any) -> BaseException:
        """Has a call raise an error, whose cause is this error of h3_qpack. Returns the cause."""
        under = self.refused(*expected).__cause__
        self.assertIs(type(under), cause)
        assert under is not None
        return under

    def test_the_names(self) -> None:
        self.assertEqual(pylsqpack.__version__, "0.3.23")
        for error in (DecoderStreamError, DecompressionFailed, EncoderStreamError, StreamBlocked):
            self.assertEqual(error.__bases__, (ValueError,))
            self.assertIs(getattr(pylsqpack, error.__name__), error)

    def test_each_parameter_by_its_name(self) -> None:
        encoder, decoder = Encoder(), Decoder(max_table_capacity=4096, blocked_streams=16)
        instructions = encoder.apply_settings(max_table_capacity=4096, blocked_streams=16)
        control, section = encoder.encode(stream_id=0, headers=REQUEST)
        with self.assertRaises(StreamBlocked):
            decoder.feed_header(stream_id=0, data=section)
        self.assertEqual(decoder.feed_encoder(data=instructions + control), [0])
        acknowledgment, headers = decoder.resume_header(stream_id=0)
        self.assertEqual(headers, REQUEST)
        encoder.feed_decoder(data=acknowledgment)

    def test_round_trips(self) -> None:
        encoder, decoder, instructions = self.pair()
        self.assertEqual(decoder.feed_encoder(instructions), [])
        sizes = []
        for stream_id in range(0, 40, 4):
            control, section = encoder.encode(stream_id, REQUEST)
            self.assertEqual(decoder.feed_encoder(control), [])
            acknowledgment, headers = decoder.feed_header(stream_id, section)
            self.assertEqual(headers, REQUEST)
            encoder.feed_decoder(acknowledgment)
            sizes.append(len(control + section))
        self.assertEqual(len(control), 0)
        self.assertLess(sizes[-1], sizes[0])

    def test_streams_byte_by_byte(self) -> None:
        encoder, decoder, instructions = self.pair()
        control, section = encoder.encode(0, REQUEST)
        with self.assertRaises(StreamBlocked):
            decoder.feed_header(0, section)
        *before, last = [decoder.feed_encoder(bytes([byte])) for byte in instructions + control]
        self.assertEqual((before[0], before[1], last), ([], [], [0]))
        acknowledgment, _ = decoder.resume_header(0)
        self.assertGreater(len(acknowledgment), 0)
        for byte in acknowledgment:
            encoder.feed_decoder(bytes([byte]))
        self.assertEqual(encoder.encode(4, REQUEST)[0], b"")

    def test_the_capacity_is_the_maximum_of_the_peer(self) -> None:
        for capacity, instructions in ((0x100, "3fe101"), (4096, "3fe11f"), (0x10000, "3fe1ff03"), (0, "")):
            encoder = Encoder()
            self.assertEqual(encoder.apply_settings(capacity, 16).hex(), instructions)
            self.assertEqual(Decoder(capacity, 16).feed_encoder(bytes.fromhex(instructions)), [])

    def test_no_table(self) -> None:
        """Without settings, or with a maximum that h3_qpack does not take, any peer can decode the sections."""
        large = Encoder()
        self.assertEqual(large.apply_settings(1 << 30, 16), b"")
        self.assertEqual(large.apply_settings((1 << 62) - 1, 16), b"")
        for encoder in (Encoder(), large):
            control, section = encoder.encode(0, REQUEST)
            self.assertEqual(control, b"")
            self.assertEqual(Decoder(0, 0).feed_header(0, section), (b"", REQUEST))

    def test_other_settings(self) -> None:
        for cause, others in ((h3_qpack.SettingsError, (4096, 15)), (h3_qpack.DecoderStreamError, (2048, 16))):
            encoder, _, _ = self.pair()
            self.refused_over(cause, RuntimeError, "lsqpack_enc_init failed", encoder.apply_settings, *others)

    def test_settings_out_of_their_range(self) -> None:
        for words in ((1 << 30, 16), (-1, 16), (4096, 65535), (4096, -1)):
            with self.assertRaises(ValueError):
                Decoder(*words)
        for words in ((-1, 16), (4096, -1), (4096, 1 << 62)):
            with self.assertRaises(ValueError):
                Encoder().apply_settings(*words)

    def test_each_stream_that_is_ready(self) -> None:
        encoder, decoder, instructions = self.pair()
        first, section = encoder.encode(8, REQUEST)
        second, other = encoder.encode(4, OTHER)
        self.assertTrue(first and second)
        for stream_id, data in ((8, section), (4, other)):
            self.refused(StreamBlocked, f"stream {stream_id} is blocked", decoder.feed_header, stream_id, data)
        self.assertEqual(decoder.feed_encoder(instructions + first), [8])
        self.assertEqual(decoder.feed_encoder(b""), [8])
        cause = self.refused_over(h3_qpack.StreamBlocked, StreamBlocked, "stream 4 is blocked", decoder.resume_header, 4)
        self.assertGreater(getattr(cause, "required"), 1)
        self.assertEqual(decoder.feed_encoder(second), [8, 4])
        told = [decoder.resume_header(stream_id) for stream_id in (4, 8)]
        self.assertEqual([headers for _, headers in told], [OTHER, REQUEST])
        self.assertEqual(decoder.feed_encoder(b""), [])
        encoder.feed_decoder(b"".join(control for control, _ in told))
        self.assertEqual([encoder.encode(12, it)[0] for it in (REQUEST, OTHER)], [b"", b""])

    def test_a_stream_has_one_section_that_is_kept(self) -> None:
        encoder, decoder, instructions = self.pair()
        control, section = encoder.encode(4, REQUEST)
        self.refused(ValueError, "no pending header block for stream 4", decoder.resume_header, 4)
        with self.assertRaises(StreamBlocked):
            decoder.feed_header(4, section)
        self.refused(ValueError, "a header block for stream 4 already exists", decoder.feed_header, 4, section)
        self.assertEqual(decoder.feed_encoder(instructions + control), [4])
        self.refused(ValueError, "a header block for stream 4 already exists", decoder.feed_header, 4, section)
        self.assertEqual(decoder.resume_header(4)[1], REQUEST)
        self.refused(ValueError, "no pending header block for stream 4", decoder.resume_header, 4)

    def test_a_section_that_got_no_memory_stays_kept(self) -> None:
        encoder, decoder, instructions = self.pair()
        control, section = encoder.encode(4, REQUEST)
        with self.assertRaises(StreamBlocked):
            decoder.feed_header(4, section)
        self.assertEqual(decoder.feed_encoder(instructions + control), [4])
        with mock.patch.object(h3_qpack.Decoder, "decode", side_effect=h3_qpack.OutOfMemory()):
            with self.assertRaises(MemoryError):
                decoder.resume_header(4)
        self.assertEqual(decoder.feed_encoder(b""), [4])
        self.assertEqual(decoder.resume_header(4)[1], REQUEST)

    def test_insertions_without_sections_add_up_to_one_increment(self) -> None:
        """Else a peer that sends instructions alone would have the decoder keep a byte for each piece."""
        for count, increment in ((1, "01"), (62, "3e"), (63, "3f00"), (64, "3f01"), (191, "3f8001"), (1000, "3fa907")):
            encoder, decoder, instructions = self.pair()
            control = b"".join(encoder.encode(4 * number, [(b"x-number", b"%d" % number)])[0] for number in range(16))
            decoder.feed_encoder(instructions + control[:-1])
            decoder.feed_encoder(control[-1:])
            first, _ = decoder.feed_header(64, bytes.fromhex("0000d1"))
            self.assertRegex(first, rb"\A[\x01-\x3e]\Z")
            encoder.feed_decoder(first)
            for _ in range(count):
                decoder.feed_encoder(bytes.fromhex("c10161"))
            self.assertEqual(decoder.feed_header(68, bytes.fromhex("0000d1"))[0].hex(), increment)
            self.assertEqual(decoder.feed_header(72, bytes.fromhex("0000d1"))[0], b"")

    def test_one_stream_too_many_is_blocked(self) -> None:
        decoder = Decoder(4096, 1)
        for stream_id, error in ((0, StreamBlocked), (4, DecompressionFailed)):
            with self.assertRaises(error):
                decoder.feed_header(stream_id, bytes.fromhex("020080"))

    def test_an_invalid_section(self) -> None:
        for section, number, offset in ((b"", 0, 0), (b"123", 0, 0), (bytes.fromhex("0000d1ff80"), 2, 3)):
            decoder = Decoder(0x100, 16)
            failed = (DecompressionFailed, "lsqpack_dec_header_in for stream 4 failed", decoder.feed_header, 4)
            cause = self.refused_over(h3_qpack.DecompressionFailed, *failed, section)
            self.assertEqual((getattr(cause, "number"), getattr(cause, "offset")), (number, offset))
            self.refused(*failed, bytes.fromhex("0000d1"))

    def test_an_invalid_section_that_was_blocked(self) -> None:
        decoder = Decoder(0x100, 16)
        with self.assertRaises(StreamBlocked):
            decoder.feed_header(4, INVALID_LATER)
        self.assertEqual(decoder.feed_encoder(bytes.fromhex("3fe101 41610162")), [4])
        failed = (DecompressionFailed, "lsqpack_dec_header_read for stream 4 failed", decoder.resume_header, 4)
        cause = self.refused_over(h3_qpack.DecompressionFailed, *failed)
        self.assertEqual((getattr(cause, "number"), getattr(cause, "offset")), (2, 3))
        self.refused(ValueError, "no pending header block for stream 4", decoder.resume_header, 4)

    def test_an_invalid_encoder_stream(self) -> None:
        decoder = Decoder(0x100, 16)
        failed = (EncoderStreamError, "lsqpack_dec_enc_in failed", decoder.feed_encoder)
        cause = self.refused_over(h3_qpack.EncoderStreamError, *failed, bytes.fromhex("3fe101 00"))
        self.assertEqual((getattr(cause, "number"), getattr(cause, "offset")), (2, 3))
        self.refused(*failed, b"")
        with self.assertRaises(DecompressionFailed):
            decoder.feed_header(0, bytes.fromhex("0000d1"))

    def test_an_invalid_decoder_stream(self) -> None:
        encoder = Encoder()
        failed = (DecoderStreamError, "lsqpack_enc_decoder_in failed", encoder.feed_decoder)
        cause = self.refused_over(h3_qpack.DecoderStreamError, *failed, b"\x00")
        self.assertEqual((getattr(cause, "number"), getattr(cause, "offset")), (1, 0))
        self.refused(*failed, b"")
        self.refused(DecoderStreamError, "lsqpack_enc_start_header failed", encoder.encode, 0, REQUEST)

    def test_what_is_no_list_of_fields(self) -> None:
        encode = Encoder().encode
        self.refused(ValueError, "headers must be a list", encode, 0, tuple(REQUEST))
        for header in ("hello", [b"a", b"b"], (b"a",), (b"a", b"b", b"c")):
            self.refused(ValueError, "the header must be a two-tuple", encode, 0, [header])
        for pair in ((1, b"b"), (b"a", 1), ("a", b"b"), (b"a", "b"), (b"a", None)):
            self.refused(ValueError, "the header's name and value must be bytes", encode, 0, [REQUEST[0], pair])

    def test_a_stream_out_of_its_range(self) -> None:
        for stream_id in (-1, 1 << 62):
            for call, data in ((Encoder().encode, REQUEST), (Decoder(0, 0).feed_header, bytes.fromhex("0000d1"))):
                with self.assertRaises(ValueError) as caught:
                    call(stream_id, data)  # type: ignore[operator]
                self.assertIs(type(caught.exception), h3_qpack.InvalidArgument)

    def test_no_limit_of_sizes(self) -> None:
        encoder, decoder, instructions = self.pair()
        headers = [(b"x-long", bytes(200_000)), *(REQUEST * 1000)]
        control, section = encoder.encode(0, headers)
        decoder.feed_encoder(instructions + control)
        self.assertEqual(decoder.feed_header(0, section)[1], headers)


if __name__ == "__main__":
    unittest.main()
