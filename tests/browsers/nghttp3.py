"""nghttp3's decoder, by ctypes: it decodes again what an end of h3_qpack wrote and read."""
import ctypes


class Failure(Exception):
    """What a run found wrong."""


class Field(ctypes.Structure):
    _fields_ = [("name", ctypes.c_void_p), ("value", ctypes.c_void_p), ("token", ctypes.c_int32), ("flags", ctypes.c_uint8)]


class Vec(ctypes.Structure):
    _fields_ = [("base", ctypes.POINTER(ctypes.c_uint8)), ("len", ctypes.c_size_t)]


def load_nghttp3():
    """Returns nghttp3, with the types of the functions that are called."""
    lib = ctypes.CDLL("libnghttp3.so.3")
    lib.nghttp3_mem_default.restype = ctypes.c_void_p
    lib.nghttp3_qpack_decoder_new.argtypes = [
        ctypes.POINTER(ctypes.c_void_p),
        ctypes.c_size_t,
        ctypes.c_size_t,
        ctypes.c_void_p,
    ]
    lib.nghttp3_qpack_decoder_read_encoder.argtypes = [ctypes.c_void_p, ctypes.c_char_p, ctypes.c_size_t]
    lib.nghttp3_qpack_decoder_read_encoder.restype = ctypes.c_ssize_t
    lib.nghttp3_qpack_decoder_read_request.argtypes = [
        ctypes.c_void_p,
        ctypes.c_void_p,
        ctypes.POINTER(Field),
        ctypes.POINTER(ctypes.c_uint8),
        ctypes.c_void_p,
        ctypes.c_size_t,
        ctypes.c_int,
    ]
    lib.nghttp3_qpack_decoder_read_request.restype = ctypes.c_ssize_t
    lib.nghttp3_qpack_stream_context_new.argtypes = [ctypes.POINTER(ctypes.c_void_p), ctypes.c_int64, ctypes.c_void_p]
    lib.nghttp3_rcbuf_get_buf.argtypes = [ctypes.c_void_p]
    lib.nghttp3_rcbuf_get_buf.restype = Vec
    return lib


class Decoder:
    """A decoder of nghttp3, for one direction of a connection."""

    EMIT, FINAL, BLOCKED = 1, 2, 4

    def __init__(self, capacity):
        self.lib, self.at, self.waiting = load_nghttp3(), ctypes.c_void_p(), []
        self.memory = self.lib.nghttp3_mem_default()
        if self.lib.nghttp3_qpack_decoder_new(ctypes.byref(self.at), capacity, 65534, self.memory):
            raise Failure("nghttp3 makes no decoder")

    def receive(self, data):
        """Reads bytes of the encoder stream. Returns the streams and the fields of the sections that waited for them."""
        if self.lib.nghttp3_qpack_decoder_read_encoder(self.at, data, len(data)) != len(data):
            raise Failure("nghttp3 refuses the encoder stream")
        waiting, self.waiting = self.waiting, []
        return [item for section in waiting for item in self.section(*section)]

    def section(self, number, data):
        """Returns the stream and the fields of a section, or nothing if it waits."""
        context, fields, at, flags = ctypes.c_void_p(), [], 0, ctypes.c_uint8()
        self.lib.nghttp3_qpack_stream_context_new(ctypes.byref(context), number, self.memory)
        whole = ctypes.create_string_buffer(data, len(data))
        while True:
            field = Field()
            read = self.lib.nghttp3_qpack_decoder_read_request(
                self.at, context, ctypes.byref(field), ctypes.byref(flags), ctypes.addressof(whole) + at, len(data) - at, 1
            )
            if read < 0:
                raise Failure(f"nghttp3 refuses the section of stream {number}: {read}")
            at += read
            if flags.value & self.BLOCKED:
                self.waiting.append((number, data))
                return []
            if flags.value & self.EMIT:
                fields.append([self.text(field.name), self.text(field.value)])
            elif flags.value & self.FINAL:
                return [(number, fields)]

    def text(self, buffer):
        vec = self.lib.nghttp3_rcbuf_get_buf(buffer)
        return bytes(vec.base[: vec.len]).decode("latin-1")
