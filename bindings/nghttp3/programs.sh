#!/usr/bin/env bash
# Runs programs of others over libnghttp3 with h3_qpack inside, as Debian 12 packages them: gtlsclient and gtlsserver of
# ngtcp2 0.12, each over nghttp3's QPACK and over h3_qpack, and gtlsclient with the server of examples/http3-server. A client
# sends 40 requests on a connection, with short paths, with paths of 1,500 bytes, so that sections are split, and with 8 %
# of the packets lost each way. All answers must have status 200. It installs by apt-get what is not there (Debian:
# ngtcp2-client, ngtcp2-server, gnutls-bin, libngtcp2-dev, libngtcp2-crypto-gnutls-dev, libgnutls28-dev), which only root can.
# What can't be had is named as not shown. The last line is 'N passed, M failed'.
set -uo pipefail
cd "$(dirname "$0")/.." || exit 1
script=bindings/nghttp3/programs.sh
. ../c/archive
. ../tests/counted
room=$(mktemp -d) || exit 1
server=
trap '[ -z "$server" ] || kill "$server"; rm -rf --one-file-system "$room"' EXIT
requests=40
port=24400
declare -A library=([nghttp3]='' [h3_qpack]=$room/ours/lib)

# Starts a server, whose words follow, over the library that is named, and waits until it listens.
start() {
    local over=$1
    shift
    port=$((port + 1))
    LD_LIBRARY_PATH=${library[$over]} "$@" >"$room/server.log" 2>&1 &
    server=$!
    local tries
    for tries in $(seq 50); do
        ! grep -qi ":$(printf '%04X' "$port") " /proc/net/udp || return 0
        sleep 0.1
    done
    echo "the server did not listen in 5 seconds (try $tries)"
    return 1
}

stop() {
    kill "$server" && wait "$server"
    server=
}

# Sends the requests with paths that end in so many bytes, over the library that is named, with more words for the client.
ask() {
    local over=$1 padding urls=() i
    padding=$(head -c "$2" /dev/zero | tr '\0' a)
    shift 2
    for i in $(seq "$requests"); do urls+=("https://localhost:$port/file.txt?$i$padding"); done
    LD_LIBRARY_PATH=${library[$over]} timeout 60 gtlsclient --exit-on-all-streams-close --no-quic-dump "$@" 127.0.0.1 "$port" \
        "${urls[@]}" >"$room/client.log" 2>&1
    local answers
    answers=$(grep -c ':status: 200' "$room/client.log")
    echo "$answers of $requests answers have status 200" | tee -a "$room/answers"
    [ "$answers" = "$requests" ] || { grep -aE 'ERR_|error|Assert' "$room/client.log" "$room/server.log" | head -n 5; return 1; }
}

# A client over one library, and a server over another.
exchange() {
    local of_server=$1 of_client=$2
    shift 2
    start "$of_server" gtlsserver -q -d "$room/www" 127.0.0.1 "$((port + 1))" "$room/key.pem" "$room/certificate.pem" || return
    ask "$of_client" "$@"
    local status=$?
    stop
    return $status
}

exchange_with_example() {
    start nghttp3 "$room/example/http3-server" --certificate "$room/certificate.pem" --key "$room/key.pem" \
        --folder "$room/www" --port "$((port + 1))" || return
    ask h3_qpack "$@"
    local status=$?
    stop
    return $status
}

make_files() {
    mkdir "$room/www" && echo hello >"$room/www/file.txt" && ../examples/http3-server/certificate "$room" >/dev/null
}

# shellcheck disable=SC2046 # words
install_packages $(list_lacking cc make python3 openssl) $(command -v gtlsclient >/dev/null || echo ngtcp2-client) \
    $(command -v gtlsserver >/dev/null || echo ngtcp2-server) $([ -f /usr/include/ngtcp2/ngtcp2.h ] ||
        echo libngtcp2-dev libngtcp2-crypto-gnutls-dev libgnutls28-dev) || true
missing=$(list_lacking cc make python3 openssl gtlsclient gtlsserver | paste -s -d ' ')
if [ -n "$missing" ]; then
    not_shown "programs over nghttp3 with h3_qpack" "without $missing"
    tell_count
    exit
fi
try "build libnghttp3" nghttp3/build "$room/ours" && try "make files" make_files || { tell_count; exit; }
load_ours() {
    local program
    for program in gtlsclient gtlsserver; do
        LD_LIBRARY_PATH=${library[h3_qpack]} ldd "$(command -v $program)" | grep -F "libnghttp3.so.3 => $room/ours/lib" || return
    done
}
try "the programs load the library" load_ours
for of_server in nghttp3 h3_qpack; do
    for of_client in nghttp3 h3_qpack; do
        [ "$of_server$of_client" != nghttp3nghttp3 ] || continue
        try "gtlsserver over $of_server, gtlsclient over $of_client" exchange $of_server $of_client 0
        try "the same with long paths" exchange $of_server $of_client 1500
        try "the same with loss" exchange $of_server $of_client 1500 --tx-loss=0.08 --rx-loss=0.08
    done
done
if try "build the example server" make -s -C ../examples/http3-server BUILD="$room/example"; then
    try "the example server, gtlsclient over h3_qpack" exchange_with_example 0
    try "the same with long paths" exchange_with_example 300
fi
awk -v s="$script" '{ right += $1; all += $3 } END { print s ": " right " of " all " answers have status 200" }' "$room/answers"
tell_count
