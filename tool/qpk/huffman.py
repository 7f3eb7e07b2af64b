"""The Huffman code of strings (RFC 7541, appendix B). qpk-capture strip reads it."""

from typing import Dict, Optional, Tuple

# The bytes whose code has so many bits. The codes follow from these, in the order of bits and of bytes.
OF_BITS = {
    5: "303132616365696f7374",
    6: "20252d2e2f333435363738393d415f62646667686c6d6e707275",
    7: "3a42434445464748494a4b4c4d4e4f5051525354555657596a6b71767778797a",
    8: "262a2c3b585a",
    10: "212228293f",
    11: "272b7c",
    12: "233e",
    13: "0024405b5d7e",
    14: "5e7d",
    15: "3c607b",
    19: "5cc3d0",
    20: "808283a2b8c2e0e2",
    21: "99a1a7acb0b1b3d1d8d9e3e5e6",
    22: "8184858688929a9ca0a3a4a9aaadb2b5b9babbbdbec4c6e4e8e9",
    23: "0187898a8b8c8d8f93959697989b9d9ea5a6a8aeafb4b6b7bcbfc5e7ef",
    24: "098e9091949fabced7e1eced",
    25: "c7cfeaeb",
    26: "c0c1c8c9cacdd2d5dadbeef0f2f3ff",
    27: "cbccd3d4d6dddedff1f4f5f6f7f8fafbfcfdfe",
    28: "020304050607080b0c0e0f1011121314151718191a1b1c1d1e1f7fdcf9",
    30: "0a0d16",
}
LENGTHS = {it: bits for bits, digits in OF_BITS.items() for it in bytes.fromhex(digits)}
PADDING = "1" * 30  # the begin of this fills the last byte; the whole is the code of EOS, which no string has


def make_codes() -> Dict[int, str]:
    """Returns the code of each byte, as a text of its bits."""
    codes, code, before = {}, 0, 0
    for bits, digits in OF_BITS.items():
        code <<= bits - before
        before = bits
        for it in bytes.fromhex(digits):
            codes[it] = f"{code:0{bits}b}"
            code += 1
    return codes


CODES = make_codes()
BYTES = {code: it for it, code in CODES.items()}
# What eight bits begin with, if that is a code; and how many bits the others have.
SHORT = {f"{it:08b}": code for it in range(256) for code in BYTES if len(code) <= 8 and f"{it:08b}".startswith(code)}
LONG = [bits for bits in OF_BITS if bits > 8]


def bits_of(data: bytes) -> int:
    """Returns how many bits bytes take, without padding."""
    return sum(map(LENGTHS.__getitem__, data))


def encode(data: bytes) -> bytes:
    """Returns bytes as they are coded."""
    text = "".join(map(CODES.__getitem__, data))
    text += PADDING[: -len(text) % 8]
    return int(text or "0", 2).to_bytes(len(text) // 8, "big")


def longer(text: str, at: int) -> str:
    """Returns the code of more than eight bits at an offset, or nothing."""
    return next((text[at : at + bits] for bits in LONG if text[at : at + bits] in BYTES), "")


def read(data: bytes) -> Tuple[bytes, str]:
    """Returns what was coded, and the bits after the last code."""
    size = 8 * len(data)
    text = f"{int.from_bytes(data, 'big'):0{size}b}{PADDING}" if data else PADDING
    out, at = bytearray(), 0
    while True:
        code = SHORT.get(text[at : at + 8]) or longer(text, at)
        if not code or at + len(code) > size:
            break
        out.append(BYTES[code])
        at += len(code)
    return bytes(out), text[at:size]


def decode(data: bytes) -> Optional[bytes]:
    """Returns what was coded, or nothing if its last bits are neither a code nor padding."""
    found, rest = read(data)
    return found if len(rest) < 8 and "0" not in rest else None


def has_end(data: bytes) -> bool:
    """Whether a string contains the code of EOS."""
    return read(data)[1].startswith(PADDING)
