"""Chromium and Firefox: how each is started with a page, and what its own log says of the fields."""
import collections
import glob
import json
import os
import re
import subprocess
import sys
from pathlib import Path

from nghttp3 import Failure

sys.path.insert(0, str(Path(__file__).resolve().parents[1]))
from chromium import CHROMIUM  # pylint: disable=wrong-import-position # tests/chromium.py

# The page gives up so many requests, whose responses may not be logged.
GIVEN_UP = 20


class Chromium:
    """Chromium. Its log has the fields of each stream, both ways."""

    name, programs = "Chromium", ["chromium"]

    def start(self, port, certificates, key, room):
        """Opens the page of a server, and returns the process."""
        rules = "MAP localhost 127.0.0.1, MAP * ~NOTFOUND, EXCLUDE 127.0.0.1"
        return subprocess.Popen(
            [
                *CHROMIUM,
                f"--host-resolver-rules={rules}",
                f"--user-data-dir={room}/profile",
                "--enable-quic",
                "--quic-version=h3",
                f"--origin-to-force-quic-on=localhost:{port}",
                f"--ignore-certificate-errors-spki-list={key}",
                f"--log-net-log={room}/net.json",
                "--net-log-capture-mode=Everything",
                f"https://localhost:{port}/test.html",
            ],
            env={**os.environ, "SSLKEYLOGFILE": f"{room}/secrets", "TMPDIR": room},
            stdout=subprocess.DEVNULL,
            stderr=subprocess.DEVNULL,
            start_new_session=True,
        )

    def compare(self, room, received, sent):
        """Checks that the log has each list of fields, and returns how many were compared."""
        logged = self.read_log(f"{room}/net.json")
        compared = self.compare_way(received, logged["HTTP3_HEADERS_SENT"], "sent")
        compared += self.compare_way(sent, logged["HTTP3_HEADERS_DECODED"], "decoded")
        if compared < len(received):
            raise Failure(f"Chromium's log has only {compared} lists")
        return compared

    @staticmethod
    def read_log(path):
        """Returns the lists of the log by session and stream: those that Chromium sent, and those that it decoded."""
        lists = {"HTTP3_HEADERS_SENT": {}, "HTTP3_HEADERS_DECODED": {}}
        with open(path, encoding="utf-8") as log:
            # The constants are a line, then comes a line for each event. The last one may be cut.
            constants = json.loads(log.readline().rstrip(",\n") + "}")["constants"]
            names = {number: name for name, number in constants["logEventTypes"].items()}
            for line in log:
                try:
                    event = json.loads(line.rstrip(",\n"))
                except ValueError:
                    continue
                kind, params = names[event["type"]], event.get("params", {})
                if kind in lists and "headers" in params:
                    lists[kind].setdefault(event["source"]["id"], {})[params["stream_id"]] = params["headers"]
        return lists

    @staticmethod
    def logged_form(fields):
        """Returns fields as they are logged: those of one name are joined, cookies by '; ', others by a backslash and
        0."""
        joined = {}
        for name, value in fields:
            between = "; " if name == "cookie" else "\\0"
            joined[name] = joined[name] + between + value if name in joined else value
        return sorted(f"{name}: {value}" for name, value in joined.items())

    def compare_way(self, lists, logged, what):
        connections, compared = {}, 0
        for (number, stream), fields in lists.items():
            connections.setdefault(number, {})[stream] = self.logged_form(fields)
        for session in logged.values():
            session = {stream: sorted(fields) for stream, fields in session.items()}
            # Chromium may open a second connection, whose streams have the same numbers. A session of its log is of the
            # connection with which it shares most lists.
            own = max(
                connections.values(),
                default={},
                key=lambda own: sum(own.get(stream) == fields for stream, fields in session.items()),
            )
            for stream in own.keys() & session.keys():
                compared += 1
                if own[stream] != session[stream]:
                    raise Failure(f"Chromium's log has another list {what} on stream {stream}: {session[stream]}")
        return compared


class Firefox:
    """Firefox. Its log has the requests and the responses as of HTTP/1.1, and not their streams."""

    name, programs = "Firefox", ["firefox-esr", "certutil"]
    NOT_COMPARED = {"connection", "te", "host"}
    SETTINGS = {
        "network.http.http3.enable": True,
        "network.http.http3.disable_when_third_party_roots_found": False,
        "network.http.http3.backup_timer_delay": 0,
        "network.http.speculative-parallel-limit": 0,
        "network.dns.disableIPv6": True,
        "network.dns.forceResolve": "127.0.0.1",
        "network.dns.localDomains": "localhost",
        "network.trr.mode": 5,
        "network.captive-portal-service.enabled": False,
        "network.connectivity-service.enabled": False,
        "security.OCSP.enabled": 0,
        "app.update.enabled": False,
        "browser.aboutwelcome.enabled": False,
        "browser.safebrowsing.update.enabled": False,
        "browser.shell.checkDefaultBrowser": False,
        "browser.startup.homepage_override.mstone": "ignore",
        "browser.topsites.contile.enabled": False,
        "datareporting.policy.dataSubmissionEnabled": False,
        "extensions.systemAddon.update.enabled": False,
        "media.gmp-manager.updateEnabled": False,
        "services.settings.server": "data:,#remote-settings-dummy/v1",
        "toolkit.telemetry.enabled": False,
    }

    def start(self, port, certificates, key, room):
        """Opens the page of a server, and returns the process."""
        profile = f"{room}/profile"
        os.mkdir(profile)
        subprocess.run(["certutil", "-N", "-d", f"sql:{profile}", "--empty-password"], check=True)
        subprocess.run(
            [
                "certutil",
                "-A",
                "-d",
                f"sql:{profile}",
                "-n",
                "http3-server test",
                "-t",
                "C,,",
                "-i",
                f"{certificates}/authority.pem",
            ],
            check=True,
        )
        settings = {**self.SETTINGS, "network.http.http3.alt-svc-mapping-for-testing": f"localhost;h3=:{port}"}
        with open(f"{profile}/user.js", "w", encoding="utf-8") as file:
            for name, value in settings.items():
                file.write(f"user_pref({json.dumps(name)}, {json.dumps(value)});\n")
        environment = {
            **os.environ,
            "HOME": profile,
            "MOZ_HEADLESS": "1",
            "MOZ_CRASHREPORTER_DISABLE": "1",
            "MOZ_LOG": "timestamp,nsHttp:4",
            "MOZ_LOG_FILE": f"{room}/firefox",
            "SSLKEYLOGFILE": f"{room}/secrets",
            "TMPDIR": room,
        }
        environment.pop("DISPLAY", None)
        return subprocess.Popen(
            ["firefox-esr", "--headless", "--no-remote", "--profile", profile, f"https://localhost:{port}/test.html"],
            env=environment,
            stdout=subprocess.DEVNULL,
            stderr=subprocess.DEVNULL,
            start_new_session=True,
        )

    def compare(self, room, received, sent):
        """Checks that the log has each list that the server received, and those that it sent but for a few. Returns how
        many were found."""
        requests, responses = collections.Counter(), collections.Counter()
        for path in glob.glob(f"{room}/firefox*.moz_log"):
            for kind, lines in self.read_log(path):
                if kind == "request":
                    requests[self.logged_request(lines)] += 1
                else:
                    responses[self.logged_response(lines)] += 1
        compared = 0
        for (_, stream), fields in received.items():
            form = self.request_form(fields)
            if not requests[form]:
                raise Failure(f"Firefox's log has no request as it was received on stream {stream}: {form}")
            requests[form] -= 1
            compared += 1
        for fields in sent.values():
            form = self.response_form(fields)
            if responses[form]:
                responses[form] -= 1
                compared += 1
        if compared < len(received) + len(sent) - GIVEN_UP:
            raise Failure(f"Firefox's log has only {compared - len(received)} of {len(sent)} responses")
        return compared

    @staticmethod
    def read_log(path):
        """Returns the requests and responses of a log file: which it is, and its lines."""
        open_lists, last, found = {}, None, []
        with open(path, encoding="latin-1") as log:
            for line in log:
                match = re.match(r".*?\[((?:Parent|Child|Socket) [^\]]*)\]: \w/nsHttp (.*)$", line)
                if not match:
                    # Two fields of the name set-cookie are one, with the end of a line between them.
                    current = open_lists.get(last)
                    if current and current[1] and current[1][-1].startswith("set-cookie: "):
                        current[1].append("set-cookie: " + line.rstrip("\n"))
                    continue
                last, text = match.groups()
                current = open_lists.get(last)
                if text in ("http request [", "http response ["):
                    open_lists[last] = (text.split()[1], [])
                elif current and text.startswith("  "):
                    if text.strip() == "OriginalHeaders":
                        # The fields again, as they came.
                        del current[1][1:]
                    else:
                        current[1].append(text[2:])
                elif current:
                    found.append(current)
                    open_lists[last] = None
        return found

    def logged_request(self, lines):
        method, path = (lines[0].split(" ") + ["", ""])[:2] if lines else ("", "")
        fields = [(line + " ").split(": ", 1) for line in lines[1:] if ":" in line]
        return method, path, self.compared_form((name.lower(), value[:-1]) for name, value in fields)

    def request_form(self, fields):
        values = dict(fields)
        return values.get(":method"), values.get(":path"), self.compared_form(fields)

    def compared_form(self, fields):
        return tuple(sorted((name, value) for name, value in fields if name[0] != ":" and name not in self.NOT_COMPARED))

    @staticmethod
    def logged_response(lines):
        status = (lines[0].split(" ") + ["", ""])[1] if lines else ""
        return status, tuple(sorted(line.rstrip() for line in lines[1:]))

    @staticmethod
    def response_form(fields):
        return dict(fields).get(":status"), tuple(
            sorted(f"{name}: {value}".rstrip() for name, value in fields if name[0] != ":")
        )


BROWSERS = [Chromium(), Firefox()]
