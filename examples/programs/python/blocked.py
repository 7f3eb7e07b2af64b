"""Two sections overtake the insertions that they require, so they are blocked. The client resets the second stream. Then the
insertions arrive, and the first section can be decoded."""

from h3_qpack import Decoder, Encoder, StreamBlocked

with Encoder(max_capacity=4096, max_blocked=16) as client, Decoder(max_capacity=4096, max_blocked=16) as server:
    kept = {}
    for stream in (0, 4):
        kept[stream] = client.encode(stream, [(b":method", b"GET"), (b"user-agent", b"example/1")]).section
        try:
            server.decode(stream, kept[stream])
        except StreamBlocked as blocked:
            print(f"stream {stream} is blocked until insertion {blocked.required}")

    server.cancel_stream(4)
    print("stream 4 is cancelled")

    server.receive(client.take_encoder_stream())
    while (ready := server.next_ready()) is not None:
        fields = server.decode(ready, kept[ready])
        print(f"stream {ready} is ready")
        for field in fields:
            print(f"  {field.name.decode()}: {field.value.decode()}")

    instructions = server.take_decoder_stream()
    print("decoder stream", instructions.hex())
    client.receive(instructions)
    print(f"{client.unacknowledged} unacknowledged sections")
