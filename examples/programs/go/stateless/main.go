// Encodes and decodes a section without a table. Any peer can decode it, and nothing is kept between two.
package main

import (
	"fmt"
	"log"

	"h3qpack"
)

func main() {
	section, err := h3qpack.EncodeStateless([]h3qpack.Field{
		{Name: ":method", Value: "GET"}, {Name: ":path", Value: "/"}, {Name: "user-agent", Value: "example/1"},
	})
	if err != nil {
		log.Fatal(err)
	}
	fmt.Printf("section %x\n", section)
	fields, err := h3qpack.DecodeStateless(section, 65536)
	if err != nil {
		log.Fatal(err)
	}
	for _, field := range fields {
		fmt.Printf("  %s: %s\n", field.Name, field.Value)
	}
}
