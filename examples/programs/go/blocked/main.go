// Two sections overtake the insertions that they require, so they are blocked. The client resets the second stream. Then the
// insertions arrive, and the first section can be decoded.
package main

import (
	"errors"
	"fmt"
	"log"

	"h3qpack"
)

func expect(err error) {
	if err != nil {
		log.Fatal(err)
	}
}

func main() {
	client, err := h3qpack.NewEncoder(h3qpack.EncoderSettings{MaxCapacity: 4096, MaxBlocked: 16})
	expect(err)
	defer client.Close()
	server, err := h3qpack.NewDecoder(h3qpack.DecoderSettings{MaxCapacity: 4096, MaxBlocked: 16})
	expect(err)
	defer server.Close()

	list := []h3qpack.Field{{Name: ":method", Value: "GET"}, {Name: "user-agent", Value: "example/1"}}
	kept := map[uint64][]byte{}
	for _, stream := range []uint64{0, 4} {
		encoded, err := client.Encode(stream, list)
		expect(err)
		kept[stream] = encoded.Section
		var failure *h3qpack.Error
		if _, err = server.Decode(stream, encoded.Section); !errors.Is(err, h3qpack.ErrBlocked) || !errors.As(err, &failure) {
			log.Fatal("the section is not blocked: ", err)
		}
		fmt.Printf("stream %d is blocked until insertion %d\n", stream, failure.Required)
	}

	expect(server.CancelStream(4))
	fmt.Println("stream 4 is cancelled")

	expect(server.Receive(client.TakeEncoderStream()))
	for stream, ok := server.NextReady(); ok; stream, ok = server.NextReady() {
		fields, err := server.Decode(stream, kept[stream])
		expect(err)
		fmt.Printf("stream %d is ready\n", stream)
		for _, field := range fields {
			fmt.Printf("  %s: %s\n", field.Name, field.Value)
		}
	}

	instructions := server.TakeDecoderStream()
	fmt.Printf("decoder stream %x\n", instructions)
	expect(client.Receive(instructions))
	fmt.Printf("%d unacknowledged sections\n", client.Unacknowledged())
}
