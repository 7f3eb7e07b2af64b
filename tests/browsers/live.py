"""The live page of examples/http3-server in Chromium: what it shows after some requests, and what the server logged."""
import json
import subprocess
from pathlib import Path

import devtools
from nghttp3 import Failure
from processes import new_folder, stop

FOLDER = Path(__file__).resolve().parents[2] / "examples" / "http3-server" / "www"
REQUESTS = 20
# What the page shows of each direction: its sections, how many it read otherwise, its lines by how they have their field, the
# rows of its table, and the fields of its last sections.
SHOWN = """['received', 'sent'].map(id => {
    const part = document.getElementById(id), texts = Array.from(part.querySelectorAll('div'), it => it.textContent);
    const found = form => Number(texts.map(text => text.match(form)?.[1]).find(it => it));
    return {count: found(/^(\\d+) sections, /), wrong: found(/^(\\d+) sections read otherwise/),
        dynamic: found(/^lines: .*\\b(\\d+) dynamic(,|$)/), isWrong: part.querySelector('.wrong') !== null,
        rows: Array.from(part.querySelectorAll('table tr'), row => Array.from(row.cells, cell => cell.textContent)).slice(1),
        sections: Array.from(part.querySelectorAll('.sections > div'), it => [it.firstChild.data,
            Array.from(it.querySelectorAll('.field'), field => field.textContent)])};
})"""


def read_sections(path):
    """Returns the lists of the sections that the server logged each way, without those of what the page asks by itself."""
    with open(path, encoding="ascii") as log:
        events = [json.loads(line) for line in log if line.endswith("\n")]
    received = {it["id"]: it["fields"] for it in events if it["event"] == "section received"}
    own = {stream for stream, fields in received.items() if dict(fields)[":path"].startswith("/live/events")}
    sent = {it["id"]: it["fields"] for it in events if it["event"] == "section sent"}
    return [{stream: fields for stream, fields in it.items() if stream not in own} for it in (received, sent)]


def open_page(browser, port):
    """Opens the page, has it make requests, and waits until it shows all of them."""
    page = browser.open(f"https://localhost:{port}/live")
    page.wait_for("document.readyState === 'complete' && document.querySelector('#received table') !== null")
    before = page.ask(SHOWN)[0]["count"]
    page.click(f"document.querySelector('[data-requests=\"{REQUESTS}\"]')")
    page.wait_for(
        f"document.querySelectorAll('#sent .sections > div').length > 1 && ({SHOWN}).every(it => it.count >= {before + REQUESTS})"
    )
    return page


def compare(shown, logged):
    """Checks what the page shows of a direction against the sections in the log."""
    if shown["count"] != len(logged) or shown["wrong"] or shown["isWrong"]:
        raise Failure(f"the live page has {shown['count']} of {len(logged)} sections, {shown['wrong']} read otherwise")
    if not shown["dynamic"] or not shown["rows"] or not shown["sections"]:
        raise Failure(f"the live page has no line, no table or no section of the dynamic table: {shown}"[:900])
    for title, fields in shown["sections"]:
        stream = int(title.split()[1].rstrip(":"))
        if fields != [f"{name}: {value}" for name, value in logged[stream]]:
            raise Failure(f"the live page has other fields than the log on stream {stream}")


def check(program, certificates, key, port):
    """Opens the page on a server, and returns what was compared."""
    words = [
        "--enable-quic",
        "--quic-version=h3",
        f"--origin-to-force-quic-on=localhost:{port}",
        f"--ignore-certificate-errors-spki-list={key}",
        "--host-resolver-rules=MAP localhost 127.0.0.1, MAP * ~NOTFOUND, EXCLUDE 127.0.0.1",
    ]
    with new_folder() as room:
        server = subprocess.Popen(
            [
                program,
                "--port",
                str(port),
                "--folder",
                FOLDER,
                "--log",
                f"{room}/log",
                "--certificate",
                f"{certificates}/certificate.pem",
                "--key",
                f"{certificates}/key.pem",
            ],
            stderr=subprocess.DEVNULL,
        )
        browser = None
        try:
            browser = devtools.Browser(room, more=words)
            page = open_page(browser, port)
            page.click("document.getElementById('pause')")
            page.wait_for("document.getElementById('pause').getAttribute('aria-pressed') === 'true'")
            shown, error = page.ask(SHOWN), page.ask("document.getElementById('error').textContent")
            logged = read_sections(f"{room}/log")
            if error or "server capacity" not in page.ask("document.getElementById('settings').textContent"):
                raise Failure(f"the live page says {error}, and no settings")
            for own, sections in zip(shown, logged):
                compare(own, sections)
        finally:
            if browser:
                browser.close()
            status = stop(server)
        if status:
            raise Failure(f"the server ended with status {status}")
    return ", ".join(f"{it['count']} sections, {len(it['rows'])} entries" for it in shown)
