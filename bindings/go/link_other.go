//go:build !bcs_pkgconfig && windows

package bcsproved

// #error "bcsproved has no library for Windows; to use one of your own, build with -tags bcs_pkgconfig"
import "C"
