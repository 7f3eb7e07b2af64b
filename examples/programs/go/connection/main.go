// Two requests of a connection, from a client's encoder to a server's decoder. The second is short, since the table has the
// fields of the first.
package main

import (
	"fmt"
	"log"

	"h3qpack"
)

func expect(err error) {
	if err != nil {
		log.Fatal(err)
	}
}

func request(client *h3qpack.Encoder, server *h3qpack.Decoder, stream uint64) {
	encoded, err := client.Encode(stream, []h3qpack.Field{
		{Name: ":method", Value: "GET"},
		{Name: ":authority", Value: "example.org"},
		{Name: "user-agent", Value: "example/1"},
	})
	expect(err)
	fmt.Printf("stream %d\n  section %x\n", stream, encoded.Section)

	// The client's encoder stream arrives before the section.
	instructions := client.TakeEncoderStream()
	fmt.Printf("  encoder stream %x\n", instructions)
	expect(server.Receive(instructions))
	fields, err := server.Decode(stream, encoded.Section)
	expect(err)
	for _, field := range fields {
		fmt.Printf("  %s: %s\n", field.Name, field.Value)
	}

	// The server's decoder stream acknowledges both.
	instructions = server.TakeDecoderStream()
	fmt.Printf("  decoder stream %x\n", instructions)
	expect(client.Receive(instructions))
}

func main() {
	client, err := h3qpack.NewEncoder(h3qpack.EncoderSettings{}) // before the server's SETTINGS
	expect(err)
	defer client.Close()
	server, err := h3qpack.NewDecoder(h3qpack.DecoderSettings{MaxCapacity: 4096, MaxBlocked: 16})
	expect(err)
	defer server.Close()
	expect(client.SetPeerSettings(4096, 16)) // they arrived
	request(client, server, 0)
	request(client, server, 4)
	fmt.Printf("%d insertions, %d unacknowledged sections\n", client.InsertCount(), client.Unacknowledged())
}
