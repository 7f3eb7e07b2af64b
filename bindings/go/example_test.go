package h3qpack_test

import (
	"errors"
	"fmt"
	"log"

	"h3qpack"
)

// A section and its instructions go from one side to the other, and the section arrives first.
func Example() {
	encoder, err := h3qpack.NewEncoder(h3qpack.EncoderSettings{MaxCapacity: 4096, MaxBlocked: 16}) // the peer's
	if err != nil {
		log.Fatal(err)
	}
	defer encoder.Close()
	decoder, err := h3qpack.NewDecoder(h3qpack.DecoderSettings{MaxCapacity: 4096, MaxBlocked: 16}) // this side's
	if err != nil {
		log.Fatal(err)
	}
	defer decoder.Close()

	encoded, err := encoder.Encode(4, []h3qpack.Field{
		{Name: "user-agent", Value: "curl/8"},
		{Name: "authorization", Value: "Basic Og==", NeverIndexed: true},
	})
	if err != nil {
		log.Fatal(err)
	}
	_, err = decoder.Decode(4, encoded.Section)
	fmt.Println("blocked:", errors.Is(err, h3qpack.ErrBlocked))

	if err := decoder.Receive(encoder.TakeEncoderStream()); err != nil {
		log.Fatal(err)
	}
	for stream, ok := decoder.NextReady(); ok; stream, ok = decoder.NextReady() {
		fields, err := decoder.Decode(stream, encoded.Section)
		if err != nil {
			log.Fatal(err)
		}
		for _, field := range fields {
			fmt.Printf("%s: %s (%t)\n", field.Name, field.Value, field.NeverIndexed)
		}
	}
	if err := encoder.Receive(decoder.TakeDecoderStream()); err != nil {
		log.Fatal(err)
	}
	fmt.Println("unacknowledged:", encoder.Unacknowledged())
	// Output:
	// blocked: true
	// user-agent: curl/8 (false)
	// authorization: Basic Og== (true)
	// unacknowledged: 0
}

func ExampleError() {
	_, err := h3qpack.DecodeStateless([]byte{0x00, 0x00, 0xd1, 0x80}, 4096)
	var failure *h3qpack.Error
	if errors.As(err, &failure) && failure.Closes() {
		fmt.Printf("close with %#x: line %d, byte %d\n", failure.Code(), failure.Number, failure.Offset)
	}
	// Output: close with 0x200: line 2, byte 3
}

func ExampleEncodeStateless() {
	section, err := h3qpack.EncodeStateless([]h3qpack.Field{{Name: ":method", Value: "GET"}})
	fmt.Printf("%x %v\n", section, err)
	fields, err := h3qpack.DecodeStateless(section, 65536)
	fmt.Println(fields[0].Name, fields[0].Value, err)
	// Output:
	// 0000d1 <nil>
	// :method GET <nil>
}
