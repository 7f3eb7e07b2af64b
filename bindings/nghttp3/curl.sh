#!/usr/bin/env bash
# Runs curl 7.88.1 with HTTP/3 over libnghttp3 with h3_qpack inside: it builds curl of Debian 12's source with ngtcp2 and
# GnuTLS, in some minutes, and has it send 30 requests on a connection, one after the other and at once, each with 30 fields
# of its own. The server of examples/http3-server returns the fields of each request, and all must be there. gtlsserver, over
# nghttp3's QPACK and over h3_qpack, must answer 200. nginx 1.26.3, which has a QPACK of its own, must send back each field; it
# is built of Debian 13's source. It installs by apt-get what is not there (Debian: ngtcp2-server, libngtcp2-dev,
# libngtcp2-crypto-gnutls-dev, libgnutls28-dev, libnghttp3-dev, libssl-dev, nettle-dev, pkg-config), which only root can, and
# gets the sources by bindings/source. What can't be had is named as not shown. The last line is 'N passed, M failed'.
set -uo pipefail
cd "$(dirname "$0")/.." || exit 1
script=bindings/nghttp3/curl.sh
. ../c/archive
. ../tests/counted
room=$(mktemp -d) || exit 1
server=
trap '[ -z "$server" ] || kill "$server"; rm -rf --one-file-system "$room"' EXIT
requests=30
fields=30
port=24500
ours=$room/ours/lib
curl=$room/curl/src/curl

build_curl() {
    (cd "$room/curl" && ./configure --with-gnutls --with-ngtcp2 --with-nghttp3 --disable-shared --disable-manual \
        --disable-ldap --without-brotli --without-zstd --without-nghttp2 --without-librtmp --without-libidn2 \
        --without-libpsl --without-libssh2 && make -s -C lib && make -s -C src)
}

build_nginx() {
    (cd "$room/nginx" && ./configure --with-http_v3_module --with-http_ssl_module --without-http_rewrite_module \
        --without-http_gzip_module --with-cc-opt=-O1 && make -s)
}

# Writes the configuration of nginx, which answers with the fields of the request.
configure_nginx() {
    local i
    echo "daemon off; master_process off; pid $room/nginx.pid; error_log $room/nginx.log; events {}"
    echo "http { access_log off; server { listen 127.0.0.1:$port quic; ssl_protocols TLSv1.3; root $room/www;"
    echo "ssl_certificate $room/certificate.pem; ssl_certificate_key $room/key.pem;"
    for i in $(seq "$fields"); do echo "add_header x-echo-$i \$http_x_field_$i;"; done
    echo "} }"
}

load_ours() {
    LD_LIBRARY_PATH=$ours ldd "$curl" | grep -F "libnghttp3.so.3 => $ours" && "$curl" --version | grep nghttp3
}

# Starts a server, whose words follow, over the libraries of a folder, and waits until it listens.
start() {
    local libraries=$1 _
    shift
    LD_LIBRARY_PATH=$libraries "$@" >"$room/server.log" 2>&1 &
    server=$!
    for _ in $(seq 50); do
        ! grep -qi ":$(printf '%04X' "$port") " /proc/net/udp || return 0
        sleep 0.1
    done
    return 1
}

stop() {
    kill "$server" && wait "$server"
    server=
}

# Has curl send the requests to a path, with more words for it. Each answer is a file, and each has a line of its version
# and status.
ask() {
    local path=$1 words=() i
    shift
    for i in $(seq "$fields"); do words+=(-H "x-field-$i: value $i of this request"); done
    for i in $(seq "$requests"); do words+=(-o "$room/answer-$i" "https://localhost:$port$path"); done
    LD_LIBRARY_PATH=$ours timeout 120 "$curl" -sk --http3-only "$@" -w '%{http_version} %{http_code}\n' "${words[@]}" \
        >"$room/said" || return
    echo "$(grep -cx '3 200' "$room/said") of $requests answers have status 200" | tee -a "$room/answers"
    [ "$(grep -cx '3 200' "$room/said")" = "$requests" ]
}

# Each answer has all fields of its request.
find_fields() {
    local found
    found=$(cat "$room"/answer-* | grep -oE 'x-field-[0-9]+","value [0-9]+ of this request' |
        sed -E 's/x-field-([0-9]+)","value ([0-9]+) .*/\1 \2/' | awk '$1 == $2' | wc -l)
    echo "$found fields came back" | tee -a "$room/answers"
    [ "$found" = $((requests * fields)) ]
}

# The same of the answers of nginx, which has them in its fields.
find_echoes() {
    local found
    found=$(cat "$room"/answer-* | tr -d '\r' | sed -nE 's/^x-echo-([0-9]+): value ([0-9]+) of this request$/\1 \2/p' |
        awk '$1 == $2' | wc -l)
    echo "$found fields came back" | tee -a "$room/answers"
    [ "$found" = $((requests * fields)) ]
}

ask_example() {
    port=$((port + 1))
    start "$ours" "$room/example/http3-server" --certificate "$room/certificate.pem" --key "$room/key.pem" \
        --folder "$room/www" --port "$port" || return
    ask /echo "$@" && find_fields
    local status=$?
    stop
    return $status
}

ask_gtlsserver() {
    local libraries=$1
    shift
    port=$((port + 1))
    start "$libraries" gtlsserver -q -d "$room/www" 127.0.0.1 "$port" "$room/key.pem" "$room/certificate.pem" || return
    ask /file.txt "$@"
    local status=$?
    stop
    return $status
}

ask_nginx() {
    port=$((port + 1))
    configure_nginx >"$room/nginx.conf"
    start '' "$room/nginx/objs/nginx" -p "$room" -c "$room/nginx.conf" -e "$room/nginx.log" || return
    ask /file.txt -i "$@" && find_echoes
    local status=$?
    stop
    return $status
}

test_nginx() {
    if ! ./source nginx "$room/nginx" 2>"$room/why"; then
        not_shown "curl with nginx" "$(tail -n 1 "$room/why")"
        return
    fi
    try "build nginx" build_nginx || return
    try "nginx, one after the other" ask_nginx
    try "nginx, all at once" ask_nginx -Z
}

list_lacking_headers() {
    [ -f /usr/include/ngtcp2/ngtcp2.h ] || echo libngtcp2-dev libngtcp2-crypto-gnutls-dev
    [ -f /usr/include/gnutls/gnutls.h ] || echo libgnutls28-dev
    [ -f /usr/include/nghttp3/nghttp3.h ] || echo libnghttp3-dev
    [ -f /usr/include/nettle/md5.h ] || echo nettle-dev
    [ -f /usr/include/openssl/ssl.h ] || echo libssl-dev
    command -v gtlsserver >/dev/null || echo ngtcp2-server
}

# shellcheck disable=SC2046 # words
install_packages $(list_lacking cc make python3 openssl pkg-config) $(list_lacking_headers) || true
missing=$(list_lacking_headers | paste -s -d ' ')
if [ -n "$missing" ]; then
    not_shown "curl over nghttp3 with h3_qpack" "without $missing"
    tell_count
    exit
fi
if ! ./source curl "$room/curl" 2>"$room/why"; then
    not_shown "curl over nghttp3 with h3_qpack" "$(tail -n 1 "$room/why")"
    tell_count
    exit
fi
mkdir "$room/www" && echo hello >"$room/www/file.txt" && ../examples/http3-server/certificate "$room" >/dev/null
try "build libnghttp3" nghttp3/build "$room/ours" && try "build the example server" make -s -C ../examples/http3-server \
    BUILD="$room/example" && try "build curl" build_curl && try "curl loads the library" load_ours || { tell_count; exit; }
try "the example server, one after the other" ask_example
try "the example server, all at once" ask_example -Z
try "gtlsserver over nghttp3" ask_gtlsserver ''
try "gtlsserver over nghttp3, all at once" ask_gtlsserver '' -Z
try "gtlsserver over h3_qpack" ask_gtlsserver "$ours"
try "gtlsserver over h3_qpack, all at once" ask_gtlsserver "$ours" -Z
test_nginx
awk -v s="$script" '/answers/ { right += $1; all += $3 } /fields/ { fields += $1 }
    END { print s ": " right " of " all " answers, " fields " fields came back" }' "$room/answers"
tell_count
