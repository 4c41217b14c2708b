// The library from Go: CGO_CFLAGS and CGO_LDFLAGS say where its header and libfixed.a are.
package main

// #cgo LDFLAGS: -lfixed
// #include <stdlib.h>
// #include "fixed.h"
import "C"

import (
	"fmt"
	"unsafe"
)

func read(text string, format C.fixed_format) (int64, uint32) {
	given := C.CString(text)
	defer C.free(unsafe.Pointer(given))
	var number C.fixed_number
	code := C.fixed_read_text(given, C.size_t(len(text)), 10, format, C.FIXED_CHECKED, C.FIXED_NEAREST, &number)
	return int64(number.bits), uint32(code)
}

func print(bits int64, format C.fixed_format) string {
	var out [C.FIXED_TEXT_SIZE]C.char
	var count C.size_t
	if C.fixed_print_bits(C.int64_t(bits), format, &out[0], C.FIXED_TEXT_SIZE, &count) != C.FIXED_OK {
		return ""
	}
	return C.GoStringN(&out[0], C.int(count))
}

func main() {
	i16f16 := C.fixed_format{is_signed: 1, width: 32, frac: 16}
	bits, code := read("3.14159", i16f16)
	fmt.Println(bits, code, print(bits, i16f16))
}
