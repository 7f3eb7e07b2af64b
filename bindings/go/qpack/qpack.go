// Package qpack has the calls of quic-go's package qpack over h3qpack, so that quic-go runs on it unchanged. It has those of
// version 0.6.0, and those of 0.2 to 0.5: [NewDecoder] with a function, [Decoder.Write], [Decoder.DecodeFull] and
// [Decoder.Close].
//
// In the module of a program that uses quic-go, beside a clone of h3_qpack:
//
//	go mod edit -replace github.com/quic-go/qpack=../h3_qpack/bindings/go/qpack
//	go mod edit -require h3qpack@v0.2.0 -replace h3qpack=../h3_qpack/bindings/go
//
// As quic-go's, it uses the static table alone.
package qpack

// A HeaderField is a line of a field section. Name and Value may have any bytes.
type HeaderField struct {
	Name  string
	Value string
}

// IsPseudo reports whether the name begins with a colon.
func (hf HeaderField) IsPseudo() bool { return len(hf.Name) != 0 && hf.Name[0] == ':' }
