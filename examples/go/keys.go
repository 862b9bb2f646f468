// Prints the keys of the document on standard input, by cgo: go run keys.go < FILE
package main

/*
#cgo pkg-config: bsonraw
#include <bsonraw.h>
*/
import "C"

import (
	"fmt"
	"io"
	"os"
	"unsafe"
)

// bytes returns where a slice is: nil for an empty one, which the library takes for no bytes.
func bytes(document []byte) *C.uint8_t {
	if len(document) == 0 {
		return nil
	}
	return (*C.uint8_t)(unsafe.Pointer(&document[0]))
}

func main() {
	document, err := io.ReadAll(os.Stdin)
	if err != nil {
		panic(err)
	}
	at, size := bytes(document), C.size_t(len(document))
	var it C.struct_bsonraw_iter
	status := C.bsonraw_iter_init(&it, at, size)
	for status == C.BSONRAW_OK {
		if status = C.bsonraw_iter_next(&it, at, size); status == C.BSONRAW_OK {
			fmt.Printf("%02x %s\n", it.tag, document[it.key_at:it.key_at+it.key_len])
		}
	}
	if status != C.BSONRAW_NONE {
		fmt.Println(C.GoString(C.bsonraw_status_text(C.int32_t(status))))
	}
}
