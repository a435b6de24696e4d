//go:build bcs_pkgconfig

package bcsproved

// #cgo pkg-config: bcs
import "C"
