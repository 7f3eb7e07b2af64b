# Uses it from Go: requires the module in one of its own, and links a program that needs no other file.
mkdir app && cd app && go mod init app 2>/dev/null
go mod edit -require h3qpack@v0.2.0 -replace "h3qpack=$CLONE/bindings/go"
cp "$CLONE/examples/programs/go/blocked/main.go" .
go run . | diff "$CLONE/examples/programs/expected/blocked.txt" -
go build -ldflags '-linkmode external -extldflags -static' -o static .
fails grep NEEDED <(readelf -d static)
./static | diff "$CLONE/examples/programs/expected/blocked.txt" -
go doc h3qpack | grep -q 'func NewEncoder'
