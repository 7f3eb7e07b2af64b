"""A client and a server of aioquic in one program, over whatever `import pylsqpack` leads to.

    python3 live.py CERTIFICATE KEY

The client sends 100 requests on a connection, ten at a time, each with a field that the server returns. It prints how many
were answered rightly.
"""

import asyncio
import ssl
import sys

import pylsqpack
from aioquic.asyncio import QuicConnectionProtocol, connect, serve
from aioquic.h3.connection import H3_ALPN, H3Connection
from aioquic.h3.events import HeadersReceived
from aioquic.quic.configuration import QuicConfiguration
from aioquic.quic.events import ProtocolNegotiated

REQUESTS = 100
AT_ONCE = 10
PORT = 24490


class Server(QuicConnectionProtocol):
    """Answers each request with its field."""

    http = None

    def quic_event_received(self, event):
        if isinstance(event, ProtocolNegotiated):
            self.http = H3Connection(self._quic)
        for it in self.http.handle_event(event) if self.http else ():
            if isinstance(it, HeadersReceived):
                fields = dict(it.headers)
                answer = [(b":status", b"200"), (b"x-echo", fields[b"x-say"]), (b"server", b"aioquic")]
                self.http.send_headers(it.stream_id, answer, end_stream=True)
                self.transmit()


class Client(QuicConnectionProtocol):
    """Sends requests, and returns the fields of their answers."""

    def __init__(self, *words, **more):
        super().__init__(*words, **more)
        self.http = H3Connection(self._quic)
        self.answers = {}

    def quic_event_received(self, event):
        for it in self.http.handle_event(event):
            if isinstance(it, HeadersReceived):
                self.answers.pop(it.stream_id).set_result(dict(it.headers))

    async def get(self, number):
        """Returns whether the answer to a request is right."""
        say = b"request %d;" % number * (1 + number % 20)
        stream = self._quic.get_next_available_stream_id()
        self.answers[stream] = asyncio.get_running_loop().create_future()
        fields = [(b":method", b"GET"), (b":scheme", b"https"), (b":authority", b"localhost"), (b":path", b"/%d" % number)]
        self.http.send_headers(stream, [*fields, (b"x-say", say)], end_stream=True)
        answer = self.answers[stream]
        self.transmit()
        found = await asyncio.wait_for(answer, 30)
        return found[b":status"] == b"200" and found[b"x-echo"] == say


async def main(certificate, key):
    ours = QuicConfiguration(is_client=False, alpn_protocols=H3_ALPN)
    ours.load_cert_chain(certificate, key)
    server = await serve("127.0.0.1", PORT, configuration=ours, create_protocol=Server)
    theirs = QuicConfiguration(alpn_protocols=H3_ALPN, verify_mode=ssl.CERT_NONE)
    right = 0
    async with connect("127.0.0.1", PORT, configuration=theirs, create_protocol=Client) as client:
        for begin in range(0, REQUESTS, AT_ONCE):
            right += sum(await asyncio.gather(*(client.get(begin + it) for it in range(AT_ONCE))))
    server.close()
    print(f"{right} of {REQUESTS} requests were answered rightly, over {pylsqpack.__file__}")


if __name__ == "__main__":
    asyncio.run(main(*sys.argv[1:]))
