//go:build !((linux && (amd64 || arm64 || riscv64)) || (darwin && (amd64 || arm64)) || (windows && amd64))

package h3qpack

// There is no assembly for this system and processor, so this does not compile.
var _ = h3qpack_is_for_linux_on_amd64_arm64_and_riscv64_and_for_macOS_and_Windows
