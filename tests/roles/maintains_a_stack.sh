# Maintains a stack on nghttp3: builds the library with this one inside, and sends a request through it.
bindings/nghttp3/build made
cc -Imade/include bindings/nghttp3/tests/pieces.c made/lib/libnghttp3.so -o pieces
data=crates/qpack_tests/data
LD_LIBRARY_PATH=made/lib ./pieces $data/chromium_4096_100.qif $data/to_chromium.qif 100 40 2 1 | tee said
grep -q '^100 requests, 100 responses, 0 differ' said
grep -q nghttp3_qpack_encoder_encode docs/MIGRATION.md
