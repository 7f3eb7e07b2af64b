"""Two requests of a connection, from a client's encoder to a server's decoder. The second is short, since the table has the
fields of the first."""

from h3_qpack import Decoder, Encoder


def request(client: Encoder, server: Decoder, stream: int) -> None:
    fields = [(b":method", b"GET"), (b":authority", b"example.org"), (b"user-agent", b"example/1")]
    section = client.encode(stream, fields).section
    print(f"stream {stream}\n  section {section.hex()}")

    # The client's encoder stream arrives before the section.
    instructions = client.take_encoder_stream()
    print("  encoder stream", instructions.hex())
    server.receive(instructions)
    for field in server.decode(stream, section):
        print(f"  {field.name.decode()}: {field.value.decode()}")

    # The server's decoder stream acknowledges both.
    instructions = server.take_decoder_stream()
    print("  decoder stream", instructions.hex())
    client.receive(instructions)


with Encoder() as encoder, Decoder(max_capacity=4096, max_blocked=16) as decoder:  # before the server's SETTINGS
    encoder.set_peer_settings(4096, 16)  # they arrived
    request(encoder, decoder, 0)
    request(encoder, decoder, 4)
    print(f"{encoder.insert_count} insertions, {encoder.unacknowledged} unacknowledged sections")
