// A peer sends a section whose second line references an entry that is not in the static table. The connection must be
// closed, and each later call says so again.
package main

import (
	"errors"
	"fmt"
	"log"

	"h3qpack"
)

func main() {
	section := []byte{0x00, 0x00, 0xd1, 0xff, 0x80, 0x01}
	server, err := h3qpack.NewDecoder(h3qpack.DecoderSettings{})
	if err != nil {
		log.Fatal(err)
	}
	defer server.Close()
	var failure *h3qpack.Error
	if _, err = server.Decode(0, section); !errors.As(err, &failure) || !failure.Closes() {
		log.Fatal("the section is not invalid: ", err)
	}
	fmt.Printf("close the connection with %#x: line %d, byte %d\n", failure.Code(), failure.Number, failure.Offset)
	if _, err = server.Decode(4, section[:3]); errors.As(err, &failure) { // this one is valid
		fmt.Printf("afterwards: %#x\n", failure.Code())
	}
}
