//go:build !cgo

package infer

// The library is one for C. Without cgo a build ends with this name.
var _ = this_package_needs_cgo__set_CGO_ENABLED_to_1_and_have_a_C_compiler
