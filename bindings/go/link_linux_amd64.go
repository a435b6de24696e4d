//go:build !bcs_pkgconfig && !bcs_c

package bcsproved

// #cgo LDFLAGS: ${SRCDIR}/libbcs_linux_amd64.a
import "C"
