package composecheck

// #include <composecheck.h>
import "C"

import (
	"runtime/cgo"
	"unsafe"
)

// A message says what is left out, or why there is no table.
type message struct {
	fault     *Fault
	isLeftOut bool
}

// composecheckGoReport keeps a message of the library; context leads to the handle of the list of those before it.
//
//export composecheckGoReport
func composecheckGoReport(context unsafe.Pointer, it *C.struct_composecheck_message) {
	messages := cgo.Handle(*(*C.uintptr_t)(context)).Value().(*[]message)
	*messages = append(*messages, message{faultOf(&it.fault, C.GoString(it.text)), bool(it.is_left_out)})
}
