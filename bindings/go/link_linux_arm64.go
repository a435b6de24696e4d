//go:build !bcs_pkgconfig && !bcs_c

package bcsproved

// #cgo LDFLAGS: ${SRCDIR}/libbcs_linux_arm64.a
import "C"
