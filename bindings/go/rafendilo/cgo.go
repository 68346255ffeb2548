//go:build !cgo

package rafendilo

// The library is linked by cgo: without it there is nothing here but this, which names the reason.
var _ = this_package_wants_CGO_ENABLED_1_and_a_C_compiler
