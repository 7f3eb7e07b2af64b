#!/usr/bin/env python3
"""Takes parts of nghttp3's nghttp3_qpack.c: what the library needs that is not QPACK, and the books of its tests.

    take.py NGHTTP3_QPACK_C FOLDER     writes from_nghttp3.inc and books_of_nghttp3.inc there
"""
import re
import sys
from pathlib import Path

# What both the library and its tests need: the token of a name, and an integer that is written.
NEEDED = ["memeq", "qpack_lookup_token", "nghttp3_qpack_put_varint", "nghttp3_qpack_put_varint_len"]
# The books of what is not acknowledged, and what the tests call.
BOOKS = """
    nghttp3_blocked_streams_key max_cnt_greater ref_min_cnt_less ref_max_cnt_greater map_stream_free
    nghttp3_qpack_read_state_reset
    nghttp3_qpack_header_block_ref_new nghttp3_qpack_header_block_ref_del
    nghttp3_qpack_stream_new nghttp3_qpack_stream_del nghttp3_qpack_stream_get_max_cnt
    nghttp3_qpack_stream_add_ref nghttp3_qpack_stream_pop_ref
    nghttp3_qpack_encoder_find_stream nghttp3_qpack_encoder_stream_is_blocked nghttp3_qpack_encoder_get_min_cnt
    nghttp3_qpack_encoder_block_stream nghttp3_qpack_encoder_unblock_stream nghttp3_qpack_encoder_unblock
    qpack_encoder_add_stream_ref qpack_encoder_remove_stream
    nghttp3_qpack_encoder_ack_header nghttp3_qpack_encoder_add_icnt nghttp3_qpack_encoder_cancel_stream
    qpack_read_varint nghttp3_qpack_encoder_read_decoder
    nghttp3_qpack_decoder_reconstruct_ricnt
""".split()
# The constants of the static table, after the macro that makes each.
TABLE = re.compile(r"^#define MAKE_STATIC_HD\(.*?^static nghttp3_qpack_static_header stable\[\] = \{\n.*?^\};\n", re.M | re.S)
# A function or a struct begins at the start of a line, and ends where a line begins with a brace.
ITEM = re.compile(r"^(?:[a-z][\w *]*\n)?[a-z][^;{}#]*\{\n.*?^\}[^\n]*\n", re.M | re.S)


def find_item(items, name):
    """Returns the one function or struct of a name."""
    wanted = re.compile(rf"\b{name}(?:\(| \{{)")
    found = [it for it in items if wanted.search(it[: it.index("{") + 1])]
    if len(found) != 1:
        sys.exit(f"take.py: {len(found)} of {name} in the source of nghttp3: it is of another version")
    return found[0]


def find_table(text):
    """Returns the constants of the static table."""
    found = TABLE.search(text)
    if not found:
        sys.exit("take.py: no static table in the source of nghttp3: it is of another version")
    return found[0]


def main(source, folder):
    text = Path(source).read_text(encoding="utf-8")
    items = ITEM.findall(text)
    needed = [find_table(text), *(find_item(items, it) for it in NEEDED)]
    for name, parts in (("from_nghttp3.inc", needed), ("books_of_nghttp3.inc", [find_item(items, it) for it in BOOKS])):
        Path(folder, name).write_text("\n".join(parts), encoding="utf-8")


if __name__ == "__main__":
    main(*sys.argv[1:])
