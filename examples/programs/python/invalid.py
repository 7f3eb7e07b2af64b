"""A peer sends a section whose second line references an entry that is not in the static table. The connection must be
closed, and each later call says so again."""

from h3_qpack import Decoder, QpackConnectionError

section = bytes.fromhex("0000d1ff8001")
with Decoder() as server:
    try:
        server.decode(0, section)
    except QpackConnectionError as error:
        print(f"close the connection with {error.code:#x}: line {error.number}, byte {error.offset}")
    try:
        server.decode(4, section[:3])  # this one is valid
    except QpackConnectionError as error:
        print(f"afterwards: {error.code:#x}")
