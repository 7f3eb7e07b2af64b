"""Recordings of many requests, as a browser makes them: lists of fields, which qpk encodes in both directions."""
import struct
import subprocess

AGENT = "Mozilla/5.0 (X11; Linux x86_64) AppleWebKit/537.36 (KHTML, like Gecko) HeadlessChrome/156.0.0.0 Safari/537.36"
KINDS = [
    ("document", "/page/{}.html?n={}", "text/html; charset=utf-8"),
    ("image", "/img/{}.png?v={}", "image/png"),
    ("script", "/js/{}.js?v={}", "application/javascript"),
    ("empty", "/api/item/{}?q={}", "application/json"),
]
CAPACITY, MOST_BLOCKED = 4096, 16


def request(number):
    """Returns the fields of a request."""
    kind, path, _ = KINDS[number % len(KINDS)]
    place = path.format(number % 997, number)
    method = "POST" if kind == "empty" and number % 3 == 0 else "GET"
    return [
        (":method", method),
        (":authority", "localhost:4461"),
        (":scheme", "https"),
        (":path", place),
        ("sec-ch-ua", '"Not:A-Brand";v="8", "Chromium";v="156"'),
        ("sec-ch-ua-mobile", "?0"),
        ("sec-ch-ua-platform", '"Linux"'),
        ("user-agent", AGENT),
        ("accept", "*/*"),
        ("sec-fetch-site", "same-origin"),
        ("sec-fetch-mode", "cors"),
        ("sec-fetch-dest", kind),
        ("referer", f"https://localhost:4461/{number // 500}"),
        ("accept-encoding", "gzip, deflate, br, zstd"),
        ("accept-language", "en-US,en;q=0.9"),
        ("cookie", f"session={number // 100}"),
        ("priority", "u=1, i"),
    ]


def response(number):
    """Returns the fields of a response."""
    status = "404" if number % 50 == 7 else "200"
    return [
        (":status", status),
        ("server", "h3_qpack example"),
        ("date", f"Mon, 30 Nov 2026 {number // 3600 % 24:02}:00:00 GMT"),
        ("content-type", KINDS[number % len(KINDS)][2]),
        ("content-length", str(number * 7919 % 50_000)),
        ("cache-control", "no-store"),
        ("x-content-type-options", "nosniff"),
        ("vary", "accept-encoding"),
    ]


def encode(program, lists):
    """Yields for each list the bytes of the encoder stream before it, and its section, as qpk encodes them."""
    text = "".join("".join(f"{name}\t{value}\n" for name, value in fields) + "\n" for fields in lists)
    words = [program, "encode", "--qif", str(CAPACITY), str(MOST_BLOCKED), "1"]
    records = subprocess.run(words, input=text.encode(), stdout=subprocess.PIPE, check=True).stdout
    place, instructions = 0, b""
    while place < len(records):
        stream, size = struct.unpack_from(">QI", records, place)
        data, place = records[place + 12 : place + 12 + size], place + 12 + size
        if stream:
            yield instructions, data
            instructions = b""
        else:
            instructions += data


def acknowledgment(stream):
    """Returns the acknowledgment of a section of a stream (RFC 9204, section 4.4.1)."""
    if stream < 127:
        return bytes([0x80 | stream])
    rest, data = stream - 127, b"\xff"
    while rest >= 128:
        rest, data = rest >> 7, data + bytes([0x80 | rest & 0x7F])
    return data + bytes([rest])


def exchange(time, marks, stream, instructions, section):
    """Yields the lines of a section with its instructions, and their times. Those of each 40th stream come later, so it is blocked."""
    own, peer = marks
    inserted = [f"{own} e {instructions.hex()}"] if instructions else []
    carried = f"{own} b {stream} {section.hex()}"
    lines = [carried, *inserted] if stream % 160 == 8 else [*inserted, carried]
    for place, line in enumerate(lines):
        yield time + 0.004 * place, line
    if section[0]:
        yield time + 0.009, f"{peer} d {acknowledgment(stream).hex()}"


def recording(program, requests):
    """Returns the lines of a recording of that many requests, each with its response."""
    lines = [(0.0, f"{mark} s {CAPACITY} {MOST_BLOCKED}") for mark in "><"]
    sent = zip(encode(program, map(request, range(requests))), encode(program, map(response, range(requests))))
    for number, (asked, answered) in enumerate(sent):
        time = 0.02 + number * 0.0125
        lines += exchange(time, "><", 4 * number, *asked)
        lines += exchange(time + 0.01, "<>", 4 * number, *answered)
    lines.sort(key=lambda it: it[0])
    return "".join(f"@{time:.6f} {line}\n" for time, line in lines)
