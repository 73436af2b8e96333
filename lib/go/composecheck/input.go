package composecheck

// #include <composecheck.h>
// #include <stdlib.h>
// #include <string.h>
import "C"

import (
	"strings"
	"unsafe"
)

// An input is the sources of a table and what goes with them, in C's memory.
type input struct {
	given  *C.struct_composecheck_input
	blocks []unsafe.Pointer
}

func newInput(sources []Source, shown Move) (*input, error) {
	it := &input{}
	it.given = (*C.struct_composecheck_input)(it.kept(zeros(C.sizeof_struct_composecheck_input)))
	block := it.kept(zeros(C.size_t(len(sources)+1) * C.sizeof_struct_composecheck_source))
	rows := unsafe.Slice((*C.struct_composecheck_source)(block), len(sources)+1)
	for index, source := range sources {
		if strings.IndexByte(source.Name, 0) >= 0 {
			return it, ErrZeroByte
		}
		rows[index].name = (*C.char)(it.kept(unsafe.Pointer(C.CString(source.Name))))
		rows[index].bytes, rows[index].length = it.bytes(source.Text)
	}
	it.given.sources, it.given.source_count, it.given.longest = &rows[0], C.size_t(len(sources)), true
	it.given.certificate, it.given.certificate_length = it.bytes(shown.Certificate)
	it.given.repertoire, it.given.repertoire_length = it.bytes(shown.Repertoire)
	return it, nil
}

// zeros is a block of C's memory.
func zeros(size C.size_t) unsafe.Pointer {
	return C.memset(C.malloc(size), 0, size)
}

// kept is a block that is freed with the input.
func (it *input) kept(block unsafe.Pointer) unsafe.Pointer {
	it.blocks = append(it.blocks, block)
	return block
}

func (it *input) bytes(given []byte) (unsafe.Pointer, C.size_t) {
	return it.kept(C.CBytes(append(given[:len(given):len(given)], 0))), C.size_t(len(given))
}

func (it *input) free() {
	for _, block := range it.blocks {
		C.free(block)
	}
}

// sentence says why these sources are refused.
func (it *input) sentence() string {
	length := C.composecheck_table_explain(it.given, nil, 0)
	text := (*C.char)(C.malloc(length + 1))
	defer C.free(unsafe.Pointer(text))
	C.composecheck_table_explain(it.given, text, length+1)
	return C.GoStringN(text, C.int(length))
}
