"""Encodes and decodes a section without a table. Any peer can decode it, and nothing is kept between two."""

from h3_qpack import decode_stateless, encode_stateless

section = encode_stateless([(b":method", b"GET"), (b":path", b"/"), (b"user-agent", b"example/1")])
print("section", section.hex())
for field in decode_stateless(section):
    print(f"  {field.name.decode()}: {field.value.decode()}")
