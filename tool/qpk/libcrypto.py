"""The ciphers of QUIC, by libcrypto through ctypes (RFC 9001, section 5). qpk-capture reads it."""

import ctypes
import ctypes.util
import os
from typing import Any, NamedTuple, Optional

LIBRARIES = ("libcrypto.so.3", "libcrypto.so.1.1", "libcrypto.so")  # before what ctypes finds, by running programs
TAG = 16  # bytes of the tag behind a payload
SAMPLE = 16  # bytes that mask a header, from four bytes after the begin of its packet number on
SET_NONCE_SIZE, SET_TAG = 0x9, 0x11  # EVP_CTRL_AEAD_SET_IVLEN, EVP_CTRL_AEAD_SET_TAG
NONCE = 12  # bytes of a nonce
MOST_PAYLOAD = 1 << 16  # bytes of a payload, which a datagram of UDP has at most


class Suite(NamedTuple):
    """A cipher suite of TLS: its hash, the length of its keys, and its ciphers in libcrypto, of payloads and of masks."""

    digest: str
    size: int
    cipher: str
    mask: str


AES_128 = Suite("sha256", 16, "EVP_aes_128_gcm", "EVP_aes_128_ecb")
AES_256 = Suite("sha384", 32, "EVP_aes_256_gcm", "EVP_aes_256_ecb")
CHACHA20 = Suite("sha256", 32, "EVP_chacha20_poly1305", "EVP_chacha20")
AES_128_CCM = Suite("sha256", 16, "EVP_aes_128_ccm", "EVP_aes_128_ecb")
ALL = (AES_128, AES_256, CHACHA20, AES_128_CCM)


# ---- The library


def load() -> Any:
    """Returns libcrypto, or nothing if it is not there. The variable LIBCRYPTO names another library."""
    named = os.environ.get("LIBCRYPTO")
    for name in (named,) if named else (*LIBRARIES, ctypes.util.find_library("crypto")):
        try:
            return declared(ctypes.CDLL(name)) if name else None
        except (OSError, AttributeError):
            continue
    return None


def declared(library: Any) -> Any:
    """Returns the library, with the types of its functions."""
    context, number, text = ctypes.c_void_p, ctypes.c_int, ctypes.c_char_p
    ciphers = [name for suite in ALL for name in (suite.cipher, suite.mask)]
    for name in ("EVP_CIPHER_CTX_new", *ciphers):
        getattr(library, name).restype = context
    for name in ("EVP_DecryptInit_ex", "EVP_EncryptInit_ex"):
        getattr(library, name).argtypes = [context, context, context, text, text]
    for name in ("EVP_DecryptUpdate", "EVP_EncryptUpdate"):
        getattr(library, name).argtypes = [context, text, ctypes.POINTER(number), text, number]
    library.EVP_DecryptFinal_ex.argtypes = [context, text, ctypes.POINTER(number)]
    library.EVP_CIPHER_CTX_ctrl.argtypes = [context, number, number, text]
    library.EVP_CIPHER_CTX_set_padding.argtypes = [context, number]
    library.EVP_CIPHER_CTX_free.argtypes = [context]
    library.EVP_CIPHER_CTX_free.restype = None
    return library


class Library:
    """libcrypto, loaded once it is asked for."""

    found: Any = None
    is_tried = False

    @classmethod
    def get(cls) -> Any:
        """Returns libcrypto, or nothing."""
        if not cls.is_tried:
            cls.found, cls.is_tried = load(), True
        return cls.found


class Context:
    """A context of libcrypto, which ends with this object."""

    room = ctypes.create_string_buffer(MOST_PAYLOAD + TAG)  # for what is written, until it is copied

    def __init__(self) -> None:
        self.library = Library.get()
        self.handle = self.library.EVP_CIPHER_CTX_new()
        if not self.handle:
            raise MemoryError
        self.size = ctypes.c_int()
        self.size_of = ctypes.byref(self.size)

    def __del__(self) -> None:
        if getattr(self, "handle", None):
            self.library.EVP_CIPHER_CTX_free(self.handle)


class Payloads(Context):
    """Opens payloads by a key (RFC 9001, section 5.3)."""

    def __init__(self, suite: Suite, key: bytes, iv: bytes) -> None:
        super().__init__()
        self.iv = int.from_bytes(iv, "big")
        self.library.EVP_DecryptInit_ex(self.handle, getattr(self.library, suite.cipher)(), None, key, None)

    def open(self, number: int, head: bytes, sealed: bytes) -> Optional[bytes]:
        """Returns the payload of the packet with a number, or nothing if the key does not open it."""
        library, handle, size_of = self.library, self.handle, self.size_of
        size = len(sealed) - TAG
        if not 0 <= size <= MOST_PAYLOAD:
            return None
        nonce = (self.iv ^ number).to_bytes(NONCE, "big")
        library.EVP_DecryptInit_ex(handle, None, None, None, nonce)
        library.EVP_CIPHER_CTX_ctrl(handle, SET_TAG, TAG, sealed[size:])
        library.EVP_DecryptUpdate(handle, None, size_of, head, len(head))
        library.EVP_DecryptUpdate(handle, self.room, size_of, sealed, size)
        is_open = library.EVP_DecryptFinal_ex(handle, None, size_of) == 1
        return ctypes.string_at(self.room, size) if is_open else None


class PayloadsOfCcm(Payloads):
    """The same where the tag and the length come before the bytes: AES-CCM (RFC 5116, section 5.3)."""

    def __init__(self, suite: Suite, key: bytes, iv: bytes) -> None:
        super().__init__(suite, key, iv)
        self.key = key
        self.library.EVP_CIPHER_CTX_ctrl(self.handle, SET_NONCE_SIZE, NONCE, None)

    def open(self, number: int, head: bytes, sealed: bytes) -> Optional[bytes]:
        """Returns the payload of the packet with a number, or nothing if the key does not open it."""
        library, handle, size_of = self.library, self.handle, self.size_of
        size = len(sealed) - TAG
        if not 0 < size <= MOST_PAYLOAD:
            return None
        nonce = (self.iv ^ number).to_bytes(NONCE, "big")
        library.EVP_CIPHER_CTX_ctrl(handle, SET_TAG, TAG, sealed[size:])
        library.EVP_DecryptInit_ex(handle, None, None, self.key, nonce)
        library.EVP_DecryptUpdate(handle, None, size_of, None, size)
        library.EVP_DecryptUpdate(handle, None, size_of, head, len(head))
        is_open = library.EVP_DecryptUpdate(handle, self.room, size_of, sealed, size) == 1
        return ctypes.string_at(self.room, size) if is_open else None


def payloads_of(suite: Suite, key: bytes, iv: bytes) -> Payloads:
    """Returns what opens payloads by a key of a suite."""
    return (PayloadsOfCcm if suite is AES_128_CCM else Payloads)(suite, key, iv)


class Masks(Context):
    """Makes the masks of headers by a key (RFC 9001, section 5.4)."""

    def __init__(self, suite: Suite, key: bytes) -> None:
        super().__init__()
        self.key = key
        self.is_block = suite is not CHACHA20
        self.cipher = getattr(self.library, suite.mask)()
        if self.is_block:
            self.library.EVP_EncryptInit_ex(self.handle, self.cipher, None, key, None)
            self.library.EVP_CIPHER_CTX_set_padding(self.handle, 0)

    def of(self, sample: bytes) -> bytes:
        """Returns the mask of a sample."""
        if self.is_block:
            self.library.EVP_EncryptUpdate(self.handle, self.room, self.size_of, sample, SAMPLE)
        else:
            self.library.EVP_EncryptInit_ex(self.handle, self.cipher, None, self.key, sample)
            self.library.EVP_EncryptUpdate(self.handle, self.room, self.size_of, bytes(5), 5)
        return ctypes.string_at(self.room, 5)
