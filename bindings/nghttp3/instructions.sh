#!/usr/bin/env bash
# Counts the instructions of nghttp3_qpack_decoder_read_request, over nghttp3's QPACK and over h3_qpack, in the exchanges of
# tests/pieces.c:
#   bindings/nghttp3/instructions.sh FOLDER [MOST]
# FOLDER is one that build made, and MOST the most bytes of a piece, by default 100,000. It needs valgrind, a C compiler and
# python3. For each corpus it prints both counts in millions, and their ratio; then the same without nghttp3_rcbuf_new, which
# allocates what both return the fields in.
set -euo pipefail
cd "$(dirname "$(realpath "$0")")"
[ $# -ge 1 ] || { echo "usage: bindings/nghttp3/instructions.sh FOLDER [MOST]" >&2; exit 2; }
folder=$(realpath "$1")
most=${2-100000}
room=$(mktemp -d)
trap 'rm -rf "$room"' EXIT
data=../../crates/qpack_tests/data
request=nghttp3_qpack_decoder_read_request

# Builds a program over the source of a folder, whose functions keep their names.
build_over() {
    local program=$1 source=$2
    shift 2
    # shellcheck disable=SC2086 # words
    "${CC:-cc}" -O2 -fPIC -DBUILDING_NGHTTP3 -DHAVE_ARPA_INET_H=1 -DHAVE_ENDIAN_H=1 -DHAVE_BYTESWAP_H=1 -DHAVE_UNISTD_H=1 \
        -DHAVE_DECL_BE64TOH=1 -DHAVE_BE64TOH=1 -I"$folder/include" -I"$source/lib" tests/pieces.c "$source"/lib/*.c "$@" \
        -lm -o "$room/$program"
}

# Prints the instructions below read_request, and those of them below nghttp3_rcbuf_new.
count() {
    valgrind -q --tool=callgrind --callgrind-out-file="$room/counts" --toggle-collect="$request" "$room/$1" "$2" "$3" 400 \
        "$most" 0 1 >"$room/told"
    callgrind_annotate --inclusive=yes --threshold=100 "$room/counts" | tr -d , |
        awk '/:nghttp3_rcbuf_new( |$)/ { rcbuf = $1 > rcbuf ? $1 : rcbuf }
            /PROGRAM TOTALS/ { all = $1 }
            END { print all, rcbuf }'
}

build_over own "$folder/nghttp3"
build_over ours "$folder/nghttp3-over-h3_qpack" "$folder/h3_qpack/libh3_qpack.a"
../../bench/corpora.py "$room/corpora"
while read -r name requests responses; do
    read -r own own_rcbufs < <(count own "$requests" "$responses")
    read -r ours our_rcbufs < <(count ours "$requests" "$responses")
    awk -v name="$name" -v a="$own" -v b="$ours" -v x="$own_rcbufs" -v y="$our_rcbufs" 'BEGIN {
        printf "%s: %.1f of nghttp3, %.1f over h3_qpack, ratio %.2f; without rcbufs %.1f, %.1f, %.2f\n", name, a / 1e6,
            b / 1e6, b / a, (a - x) / 1e6, (b - y) / 1e6, (b - y) / (a - x) }'
done <<END
chromium $data/chromium_4096_100.qif $data/to_chromium.qif
firefox $data/firefox_4096_100.qif $data/to_firefox.qif
proxy $room/corpora/proxy_requests.qif $room/corpora/proxy_responses.qif
END
