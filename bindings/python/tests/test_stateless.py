"""Sections without an end, and the examples in the docstrings."""

import doctest
import unittest
from typing import List

import h3_qpack
from h3_qpack import (
    DecompressionFailed,
    Field,
    FieldLike,
    InvalidArgument,
    SectionTooLarge,
    _stateless,
    decode_stateless,
    encode_stateless,
)

METHOD = b"\x00\x00\xd1"


class StatelessTest(unittest.TestCase):
    def test_round_trips(self) -> None:
        lists: List[List[FieldLike]] = [
            [],
            [(b":method", b"GET")],
            [(b"", b""), (b"x", b"")],
            [(b"authorization", b"Basic Og==", True)],
            [(b"long", 1500 * b"\xff"), *(40 * [(b"x", b"\x00")])],
        ]
        for fields in lists:
            self.assertEqual(decode_stateless(encode_stateless(fields)), [Field(*it) for it in fields])

    def test_the_limit(self) -> None:
        self.assertEqual(decode_stateless(METHOD, 42), [Field(b":method", b"GET")])
        self.assertEqual(decode_stateless(METHOD, 2**64 - 1), [Field(b":method", b"GET")])
        with self.assertRaises(SectionTooLarge):
            decode_stateless(METHOD, 41)
        for number in (-1, 2**64):
            with self.assertRaises(InvalidArgument):
                decode_stateless(METHOD, number)

    def test_an_invalid_section(self) -> None:
        with self.assertRaises(DecompressionFailed) as caught:
            decode_stateless(METHOD + b"\x80")
        self.assertEqual((caught.exception.number, caught.exception.offset), (2, 3))


def load_tests(_loader: unittest.TestLoader, tests: unittest.TestSuite, _pattern: object) -> unittest.TestSuite:
    """Adds the examples of the docstrings."""
    for module in (h3_qpack, _stateless):
        tests.addTests(doctest.DocTestSuite(module))
    return tests
