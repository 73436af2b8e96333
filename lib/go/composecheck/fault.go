package composecheck

// #include <composecheck.h>
import "C"

import "fmt"

// A Part says what is refused. docs/LIBRARY.md lists the codes of each.
type Part uint32

const (
	Names       Part = C.COMPOSECHECK_NAMES
	Bundle      Part = C.COMPOSECHECK_BUNDLE
	InSource    Part = C.COMPOSECHECK_SOURCE
	Overlap     Part = C.COMPOSECHECK_OVERLAP
	Nodes       Part = C.COMPOSECHECK_NODES
	Memory      Part = C.COMPOSECHECK_MEMORY
	Repertoire  Part = C.COMPOSECHECK_REPERTOIRE
	Certificate Part = C.COMPOSECHECK_CERTIFICATE
	Condition   Part = C.COMPOSECHECK_CONDITION
	Search      Part = C.COMPOSECHECK_SEARCH
	InTable     Part = C.COMPOSECHECK_TABLE
)

// A Fault is the error of what is refused: where and why. Sources count from 0, lines and columns (in characters) from 1; what a fault doesn't have
// is 0.
type Fault struct {
	Part          Part
	Code, Lexical uint32
	Value         uint32 // a keysym or a character
	Source        uint64
	Line, Column  uint64
	At            uint64 // an offset in bytes, or the index of an event, a pair or a node
	Text          string // a sentence that says it, with file, line and column where there are any
}

func (fault *Fault) Error() string {
	if fault.Text == "" {
		return fmt.Sprintf("part %d, code %d", fault.Part, fault.Code)
	}
	return fault.Text
}

func faultOf(it *C.struct_composecheck_fault, text string) *Fault {
	if text == "" && it.part == C.COMPOSECHECK_MEMORY {
		text = "out of memory"
	}
	return &Fault{
		Part: Part(it.part), Code: uint32(it.code), Lexical: uint32(it.lexical), Value: uint32(it.value), Source: uint64(it.source),
		Line: uint64(it.line), Column: uint64(it.column), At: uint64(it.at), Text: text,
	}
}
