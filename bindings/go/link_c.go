//go:build !bcs_pkgconfig && !windows && (bcs_c || !(linux && (amd64 || arm64)))

package bcsproved

// The package has the library in C, bcs_library.c, which is compiled under the same condition.

// #cgo CFLAGS: -std=gnu11 -g0 -w
// #cgo LDFLAGS: -pthread
import "C"
