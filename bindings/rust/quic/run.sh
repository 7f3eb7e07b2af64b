#!/usr/bin/env bash
# HTTP/3 GETs over QUIC on the loopback: builds both programs, one of tasks and one that is polled, and runs them with a
# certificate of their own. It needs cargo, openssl, and quinn and tokio as Debian 12 has them (librust-quinn-dev,
# librust-tokio-dev). Ends with status 0 if the GETs were answered; with --can it only tells by its status whether what it
# needs is there.
set -euo pipefail
cd "$(dirname "$0")"

registry=/usr/share/cargo/registry
can_run() {
    command -v cargo >/dev/null && command -v openssl >/dev/null &&
        ls -d "$registry"/quinn-0.9.* "$registry"/tokio-1.* >/dev/null 2>&1
}

if [ "${1:-}" = --can ]; then
    can_run
    exit
fi
can_run || { echo "bindings/rust/quic/run.sh: install openssl, librust-quinn-dev and librust-tokio-dev first" >&2; exit 1; }
room=$(mktemp -d)
trap 'rm -rf "$room"' EXIT
cat >"$room/openssl.cnf" <<'END'
[req]
distinguished_name = name
x509_extensions = extensions
[name]
[extensions]
subjectAltName = DNS:localhost
basicConstraints = critical, CA:FALSE
END
openssl req -config "$room/openssl.cnf" -x509 -newkey ec -pkeyopt ec_paramgen_curve:prime256v1 -nodes -days 2 \
    -subj /CN=localhost -keyout "$room/key.pem" -outform DER -out "$room/certificate.der" 2>"$room/told" ||
    { cat "$room/told" >&2; exit 1; }
openssl pkcs8 -topk8 -nocrypt -in "$room/key.pem" -outform DER -out "$room/key.der"
for program in h3_qpack_quic polled; do
    cargo run -q --offline --bin "$program" -- "$room/certificate.der" "$room/key.der"
done
