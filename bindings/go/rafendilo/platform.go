//go:build !linux || !(amd64 || arm64)

package rafendilo

// The library inside is the text of a compiler for these: elsewhere this names the reason.
var _ = this_package_is_for_linux_on_amd64_and_arm64
