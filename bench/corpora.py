#!/usr/bin/env python3
"""Writes corpora of made lists of fields, the same in every run and on every machine.

    bench/corpora.py FOLDER [SEED]

A corpus has a field a line, its name and its value parted by a TAB, and an empty line behind each list. FOLDER gets six of
them, of 300 to 600 lists: `grpc`, calls of services with traces and binary metadata, and responses with trailers; `player`,
ranges of films from a few hosts, whose queries are signed; and `proxy`, ten users at forty origins, all on one connection.
Each has `_requests.qif` and `_responses.qif`. Another seed makes other lists of the same kinds.
"""
import base64
import sys
from pathlib import Path

SEED = 0x9E3779B97F4A7C15
WORD = (1 << 64) - 1
HEX = "0123456789abcdef"
LETTERS = "abcdefghijklmnopqrstuvwxyz"
SIGNED = "ABCDEFGHIJKLMNOPQRSTUVWXYZabcdefghijklmnopqrstuvwxyz0123456789-_~"
DAYS = ("Mon", "Tue", "Wed", "Thu", "Fri", "Sat", "Sun")


class Numbers:
    """Numbers by chance, which depend on the seed alone, and on no version of Python."""

    def __init__(self, seed):
        self.state = seed & WORD or SEED

    def below(self, limit):
        """Returns a number below a limit."""
        self.state ^= self.state << 13 & WORD
        self.state ^= self.state >> 7
        self.state ^= self.state << 17 & WORD
        return (self.state >> 11) % limit

    def of(self, choices):
        """Returns one of some choices."""
        return choices[self.below(len(choices))]

    def early_of(self, choices):
        """Returns one of some choices, the first ones more often."""
        return choices[min(self.below(len(choices)), self.below(len(choices)))]

    def is_one_in(self, many):
        """Returns whether a case is one that occurs once in that many."""
        return self.below(many) == 0

    def text(self, letters, count):
        """Returns that many letters."""
        return "".join(self.of(letters) for _ in range(count))

    def hex(self, count):
        """Returns that many hexadecimal digits."""
        return self.text(HEX, count)

    def bytes(self, count):
        """Returns that many bytes."""
        return bytes(self.below(256) for _ in range(count))


def date_at(second):
    """Returns the date of a second since the one when all corpora begin."""
    minute, hour, day = second // 60, 10 + second // 3600, 5 + second // 86400
    return f"{DAYS[day % 7]}, {6 + day:02} Oct 2025 {hour % 24:02}:{minute % 60:02}:{second % 60:02} GMT"


# ---- gRPC


SERVICES = {
    "shop.catalog.v1.Catalog": ("GetItem", "ListItems", "GetPrice", "Search", "Watch"),
    "shop.cart.v1.Cart": ("Get", "Add", "Remove", "Clear"),
    "shop.orders.v2.Orders": ("Place", "Get", "List", "Cancel"),
    "auth.v1.Tokens": ("Verify", "Refresh"),
}
CALLERS = ("grpc-go/1.62.1", "grpc-java-netty/1.61.0", "grpc-node-js/1.10.3")
GRPC_ERRORS = (
    ("5", "item%20not%20found"),
    ("4", "context%20deadline%20exceeded"),
    ("14", "upstream%20connect%20error%20or%20disconnect%2Freset%20before%20headers"),
    ("16", "token%20expired"),
)


def encode_binary(raw):
    """Returns binary metadata as it is sent: in base64 without padding."""
    return base64.b64encode(raw).decode().rstrip("=")


class Caller:
    """A service that calls others: its marks stay, and its token is another one after some calls."""

    def __init__(self, numbers, agent):
        self.numbers, self.agent = numbers, agent
        self.tenant = encode_binary(b"\x0a\x10" + numbers.bytes(16))
        self.calls = 0
        self.token = ""
        self.trace = numbers.hex(32)

    def call(self):
        """Returns the fields of the next call."""
        numbers = self.numbers
        if self.calls % 50 == 0:
            self.token = f"Bearer eyJhbGciOiJSUzI1NiJ9.{numbers.text(SIGNED[:62], 160)}.{numbers.text(SIGNED[:64], 86)}"
        if self.calls % 4 == 0:
            self.trace = numbers.hex(32)
        self.calls += 1
        service = numbers.early_of(list(SERVICES))
        fields = [
            (":method", "POST"),
            (":scheme", "https"),
            (":path", f"/{service}/{numbers.early_of(SERVICES[service])}"),
            (":authority", f"{service.split('.')[-3]}.mesh.internal:8443"),
            ("content-type", "application/grpc+proto"),
            ("te", "trailers"),
            ("user-agent", self.agent),
            ("grpc-accept-encoding", "identity, deflate, gzip"),
            ("grpc-timeout", numbers.of(("1S", "5S", "30S", f"{4900 + numbers.below(100)}m"))),
            ("authorization", self.token),
            ("x-tenant-bin", self.tenant),
            ("traceparent", f"00-{self.trace}-{numbers.hex(16)}-01"),
            ("x-request-id", f"{numbers.hex(8)}-{numbers.hex(4)}-4{numbers.hex(3)}-a{numbers.hex(3)}-{numbers.hex(12)}"),
        ]
        if numbers.is_one_in(3):
            fields.append(("grpc-trace-bin", encode_binary(b"\0\0" + numbers.bytes(16) + b"\1" + numbers.bytes(8) + b"\2\1")))
        return fields


def make_grpc_requests(numbers):
    """Yields calls of three services."""
    callers = [Caller(numbers, it) for it in CALLERS]
    for _ in range(400):
        yield numbers.early_of(callers).call()


def make_grpc_responses(numbers):
    """Yields responses of four fields, each with its trailers behind it, or without a body, then with those of trailers."""
    for number in range(300):
        begin = [
            (":status", "200"),
            ("content-type", "application/grpc+proto"),
            ("grpc-encoding", "gzip" if numbers.is_one_in(4) else "identity"),
            ("date", date_at(number // 5)),
        ]
        status, message = numbers.early_of(GRPC_ERRORS) if numbers.is_one_in(12) else ("0", "")
        end = [("grpc-status", status), ("grpc-message", message)]
        if status == "0":
            end.append(("x-cost-bin", encode_binary(numbers.bytes(1 + numbers.below(3)))))
            yield begin
            yield end
        else:
            yield begin + end


# ---- A player of films


HOSTS = ("vod-a.cdn.example.net", "vod-b.cdn.example.net", "audio.cdn.example.net", "img.example.net")
PLAYER = "Mozilla/5.0 (X11; Linux x86_64) AppleWebKit/537.36 (KHTML, like Gecko) Chrome/141.0.0.0 Safari/537.36"
# How often a track is fetched before its query is signed again.
FETCHES_A_SIGNATURE = 40


class Track:
    """A file that a player fetches in ranges: its query is signed again after a while."""

    def __init__(self, numbers, host, kind):
        self.numbers, self.host, self.kind = numbers, host, kind
        self.film = numbers.hex(12)
        self.size = 40_000_000 + numbers.below(900_000_000)
        self.tag = f'"{numbers.hex(32)}-{numbers.below(90) + 10}"'
        self.changed = date_at(numbers.below(9000))
        self.at = self.fetches = 0
        self.quality = self.query = ""
        self.sign()

    def sign(self):
        """Signs the query, for the quality that is played next."""
        numbers = self.numbers
        self.quality = numbers.of(("480p", "720p", "1080p", "1440p"))
        policy = base64.urlsafe_b64encode(f'{{"r":"/{self.film}/*","t":{1759745000 + numbers.below(9999)}}}'.encode()).decode()
        self.query = f"Policy={policy}&Signature={numbers.text(SIGNED, 342)}&Key-Pair-Id=K{numbers.text(SIGNED[:26], 13)}"

    def fetch(self):
        """Returns the path and the range of the next fetch."""
        self.fetches += 1
        if self.fetches % FETCHES_A_SIGNATURE == 0:
            self.sign()
        first, self.at = self.at, self.at + 300_000 + self.numbers.below(2_000_000)
        if self.at > self.size:
            first, self.at = 0, 300_000
        return f"/{self.film}/{self.quality}/{self.kind}.mp4?{self.query}", first, self.at - 1


def make_tracks(numbers):
    """Returns the tracks that are played: two of pictures, and two of sound."""
    return [Track(numbers, HOSTS[it], "audio" if it == 2 else "video") for it in (0, 2, 1, 2)]


def make_player_requests(numbers):
    """Yields requests of ranges, of thumbnails between them, and of a beacon now and then."""
    tracks = make_tracks(numbers)
    for _ in range(360):
        track = numbers.early_of(tracks)
        path, first, last = track.fetch()
        host, kind, span = track.host, "video", ("range", f"bytes={first}-{last}")
        if numbers.is_one_in(6):
            host, kind, span = HOSTS[3], "image", ("accept-encoding", "gzip, deflate, br, zstd")
            path = f"/thumbs/{track.film}/{numbers.below(40)}.webp?w=320&sig={numbers.text(SIGNED, 43)}"
        yield [
            (":method", "GET"),
            (":scheme", "https"),
            (":authority", host),
            (":path", path),
            ("sec-ch-ua", '"Chromium";v="141", "Not?A_Brand";v="8"'),
            ("sec-ch-ua-mobile", "?0"),
            ("sec-ch-ua-platform", '"Linux"'),
            ("user-agent", PLAYER),
            ("accept", "*/*" if kind == "video" else "image/avif,image/webp,image/apng,image/svg+xml,image/*,*/*;q=0.8"),
            ("origin", "https://play.example.com"),
            ("sec-fetch-site", "cross-site"),
            ("sec-fetch-mode", "cors" if kind == "video" else "no-cors"),
            ("sec-fetch-dest", "empty" if kind == "video" else "image"),
            ("referer", "https://play.example.com/"),
            span,
            ("accept-language", "en-US,en;q=0.9"),
            ("priority", "u=1, i" if kind == "video" else "u=3, i"),
        ]


def make_player_responses(numbers):
    """Yields responses of the ranges, of which one in ten is not cached near."""
    tracks = make_tracks(numbers)
    for number in range(360):
        track = numbers.early_of(tracks)
        _, first, last = track.fetch()
        is_near = not numbers.is_one_in(10)
        yield [
            (":status", "206"),
            ("content-type", f"{track.kind}/mp4"),
            ("content-length", str(last - first + 1)),
            ("content-range", f"bytes {first}-{last}/{track.size}"),
            ("accept-ranges", "bytes"),
            ("last-modified", track.changed),
            ("etag", track.tag),
            ("date", date_at(number * 2)),
            ("cache-control", "public, max-age=31536000, immutable"),
            ("access-control-allow-origin", "https://play.example.com"),
            ("access-control-expose-headers", "Content-Length, Content-Range, Date, Server-Timing"),
            ("timing-allow-origin", "*"),
            ("server", "edge-cache"),
            ("x-cache", "HIT" if is_near else "MISS"),
            ("via", f"1.1 {HEX[number % 3] * 8}.edge.example.net"),
            ("x-edge-pop", numbers.early_of(("FRA60-P2", "FRA60-P4", "AMS1-P1"))),
            ("x-edge-id", numbers.text(SIGNED, 56)),
            ("age", str(numbers.below(86400)) if is_near else "0"),
        ]


# ---- A proxy


AGENTS = (
    "Mozilla/5.0 (Windows NT 10.0; Win64; x64) AppleWebKit/537.36 (KHTML, like Gecko) Chrome/141.0.0.0 Safari/537.36",
    "Mozilla/5.0 (X11; Linux x86_64; rv:144.0) Gecko/20100101 Firefox/144.0",
    "Mozilla/5.0 (Macintosh; Intel Mac OS X 10_15_7) AppleWebKit/605.1.15 (KHTML, like Gecko) Version/18.4 Safari/605.1.15",
    "Mozilla/5.0 (iPhone; CPU iPhone OS 18_4 like Mac OS X) AppleWebKit/605.1.15 (KHTML, like Gecko) Mobile/15E148",
    "okhttp/4.12.0",
)
LANGUAGES = ("en-US,en;q=0.9", "de-DE,de;q=0.9,en;q=0.6", "fr,en-US;q=0.7", "es-ES,es;q=0.9", "ja,en;q=0.8")
KINDS = {
    "document": ("text/html,application/xhtml+xml,application/xml;q=0.9,*/*;q=0.8", "text/html; charset=utf-8"),
    "script": ("*/*", "application/javascript"),
    "style": ("text/css,*/*;q=0.1", "text/css"),
    "image": ("image/avif,image/webp,image/png,image/svg+xml,image/*;q=0.8,*/*;q=0.5", "image/webp"),
    "empty": ("application/json", "application/json"),
}
SERVERS = ("nginx", "cloudflare", "Apache/2.4.62 (Debian)", "envoy", "gws", "AmazonS3", "Vercel")
POLICIES = (
    "default-src 'self'; img-src * data:; style-src 'self' 'unsafe-inline'",
    "upgrade-insecure-requests; frame-ancestors 'self'",
    "default-src 'none'; base-uri 'self'; connect-src 'self' https://collector.example.com; font-src 'self'",
)


class Origin:
    """A server of others: what it sends in each response, and the paths that it has."""

    def __init__(self, numbers, number):
        self.name = f"{numbers.text(LETTERS, 4 + numbers.below(8))}.example-{number}.{numbers.of(('com', 'org', 'net', 'io'))}"
        self.paths = [f"/{numbers.text(LETTERS, 3 + numbers.below(9))}/{numbers.hex(6)}" for _ in range(12)]
        self.always = [("server", numbers.of(SERVERS))]
        if not numbers.is_one_in(3):
            self.always.append(("strict-transport-security", f"max-age={numbers.of((31536000, 63072000))}; includeSubDomains"))
        if not numbers.is_one_in(3):
            self.always.append(("content-security-policy", f"{numbers.of(POLICIES)}; report-uri https://{self.name}/csp"))
        if numbers.is_one_in(2):
            self.always.append(("x-content-type-options", "nosniff"))
        if numbers.is_one_in(2):
            self.always.append(("alt-svc", 'h3=":443"; ma=86400'))
        self.trace = numbers.of(("x-request-id", "cf-ray", "x-amz-request-id", ""))


class User:
    """A user of the proxy: stays at an origin for some requests, and has a cookie for each."""

    def __init__(self, numbers, number):
        self.numbers = numbers
        self.agent, self.language = numbers.early_of(AGENTS), numbers.of(LANGUAGES)
        self.address = f"10.20.{number}.{numbers.below(250) + 2}"
        self.cookies = {}
        self.origin, self.page = None, ""

    def visit(self, origins):
        """Moves to another origin, or to another page of the same."""
        if self.origin is None or self.numbers.is_one_in(3):
            self.origin = self.numbers.early_of(origins)
        self.page = f"https://{self.origin.name}{self.numbers.of(self.origin.paths)}"
        self.cookies.setdefault(self.origin.name, f"sid={self.numbers.hex(40)}; theme={self.numbers.of(('dark', 'light'))}")

    def request(self, origins):
        """Returns the fields of the next request."""
        numbers = self.numbers
        is_visit = self.origin is None or numbers.is_one_in(9)
        if is_visit:
            self.visit(origins)
        kind = "document" if is_visit else numbers.of(list(KINDS)[1:])
        path = self.page.split("/", 3)[3] if is_visit else numbers.early_of(self.origin.paths)[1:]
        query = f"?t={numbers.below(10**9)}" if kind == "empty" else ""
        fields = [
            (":method", "POST" if kind == "empty" and numbers.is_one_in(2) else "GET"),
            (":scheme", "https"),
            (":authority", self.origin.name),
            (":path", f"/{path}{query}"),
            ("user-agent", self.agent),
            ("accept", KINDS[kind][0]),
            ("accept-language", self.language),
            ("accept-encoding", "gzip, deflate, br"),
            ("sec-fetch-dest", kind),
            ("sec-fetch-mode", "navigate" if is_visit else "no-cors"),
            ("sec-fetch-site", "none" if is_visit else "same-origin"),
        ]
        if not is_visit:
            fields.append(("referer", self.page))
        fields.append(("cookie", self.cookies[self.origin.name]))
        return fields + [("x-forwarded-for", self.address), ("via", "1.1 proxy-3.office.example")]


def make_origins(numbers):
    """Returns the origins, those first that are visited more often."""
    return [Origin(numbers, it) for it in range(40)]


def make_proxy_requests(numbers):
    """Yields requests of the users."""
    origins = make_origins(numbers)
    users = [User(numbers, it) for it in range(10)]
    for _ in range(600):
        yield numbers.of(users).request(origins)


def make_proxy_responses(numbers):
    """Yields responses of the origins."""
    origins = make_origins(numbers)
    for number in range(600):
        origin = numbers.early_of(origins)
        kind = numbers.of(list(KINDS))
        status = numbers.early_of(("200", "200", "200", "304", "404", "302"))
        is_kept = kind not in ("document", "empty")
        fields = [
            (":status", status),
            ("date", date_at(number // 4)),
            ("content-type", KINDS[kind][1]),
            ("content-length", str(200 + numbers.below(90_000))),
            ("cache-control", f"public, max-age={60 * len(origin.name)}" if is_kept else "private, no-store"),
            ("vary", "Accept-Encoding"),
        ]
        if is_kept:
            fields.append(("etag", f'W/"{numbers.hex(16)}"'))
        if kind == "document":
            fields.append(("set-cookie", f"seen={numbers.below(10**9)}; Path=/; Secure; HttpOnly; SameSite=Lax"))
        if origin.trace:
            fields.append((origin.trace, numbers.hex(20)))
        yield fields + origin.always + [("via", "1.1 proxy-3.office.example")]


CORPORA = {
    "grpc_requests": make_grpc_requests,
    "grpc_responses": make_grpc_responses,
    "player_requests": make_player_requests,
    "player_responses": make_player_responses,
    "proxy_requests": make_proxy_requests,
    "proxy_responses": make_proxy_responses,
}


def write_corpora(folder, seed=SEED):
    """Writes each corpus into a folder, and returns the paths."""
    paths = []
    for number, (name, make) in enumerate(CORPORA.items()):
        lists = make(Numbers(seed + number))
        texts = ["".join(f"{name}\t{value}\n" for name, value in it) for it in lists]
        paths.append(folder / f"{name}.qif")
        paths[-1].write_bytes("".join(f"{it}\n" for it in texts).encode())
    return paths


def main(words):
    if not 1 <= len(words) <= 2 or words[0].startswith("-"):
        sys.exit(__doc__)
    folder = Path(words[0])
    folder.mkdir(parents=True, exist_ok=True)
    write_corpora(folder, int(words[1], 0) if words[1:] else SEED)
    return 0


if __name__ == "__main__":
    sys.exit(main(sys.argv[1:]))
