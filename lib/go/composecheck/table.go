package composecheck

// #include <composecheck.h>
// #include <stdlib.h>
// void composecheckGoReport(void *context, struct composecheck_message *message);
import "C"

import (
	"errors"
	"runtime"
	"runtime/cgo"
	"strings"
	"unsafe"
)

// ErrZeroByte is the error of a path, a name or a locale with a zero byte.
var ErrZeroByte = errors.New("a path, a name or a locale has a zero byte")

// A Table may be used by any number of goroutines and states at once; nothing changes it.
type Table struct {
	block  unsafe.Pointer
	length C.size_t
}

// Options say how the table of a user is read.
type Options struct {
	System   string       // the folder of the system's tables; "": $XLOCALEDIR, or /usr/share/X11/locale
	IsStrict bool         // a faulty line refuses the table; else up to ten of them are left out
	IsCached bool         // the table is kept in the user's cache, and taken from there while its files are the same
	Report   func(*Fault) // gets each line that is left out; may be nil
}

// Places are what the includes of a file lead to; "" is no place.
type Places struct {
	System  string // the folder of the system's tables, for %S
	Locale  string // the table of the locale, for %L
	Home    string // the home folder, for %H
	Sysroot string // the folder below which an absolute path is looked for first
}

// A Source is a text of a table: its name, as the including line has it between its quotes, and its content.
type Source struct {
	Name string
	Text []byte
}

// A Move is what shows that typing goes on as before when a table takes another one's place.
type Move struct {
	Certificate, Repertoire []byte
}

// FromLocale returns the table of the user, as libxkbcommon finds it; "" is the locale of the environment. Faulty lines are left out, up to ten of
// them.
func FromLocale(locale string) (*Table, error) {
	return FromLocaleWith(locale, Options{})
}

// FromLocaleWith is FromLocale with options.
func FromLocaleWith(locale string, options Options) (*Table, error) {
	texts, err := newTexts(locale, options.System)
	defer texts.free()
	if err != nil {
		return nil, err
	}
	var messages []message
	handle := cgo.NewHandle(&messages)
	defer handle.Delete()
	given := (*C.struct_composecheck_options)(zeros(C.sizeof_struct_composecheck_options))
	defer C.free(unsafe.Pointer(given))
	context := (*C.uintptr_t)(C.malloc(C.sizeof_uintptr_t))
	defer C.free(unsafe.Pointer(context))
	*context = C.uintptr_t(handle)
	given.system, given.is_strict, given.is_cached = texts[1], C.bool(options.IsStrict), C.bool(options.IsCached)
	given.context = unsafe.Pointer(context)
	var length C.size_t
	made := C.composecheck_table_from_locale(texts[0], given, (*C.composecheck_report)(C.composecheckGoReport), &length)
	end := &Fault{}
	for _, it := range messages {
		if !it.isLeftOut {
			end = it.fault
		} else if options.Report != nil {
			options.Report(it.fault)
		}
	}
	return owned(made, length, end)
}

// FromFile returns the table of the file at this path, with every file that it includes.
func FromFile(path string, places Places) (*Table, error) {
	texts, err := newTexts(path, places.System, places.Locale, places.Home, places.Sysroot)
	defer texts.free()
	if err != nil {
		return nil, err
	}
	root := texts[0]
	if root == nil {
		root = C.CString("")
		defer C.free(unsafe.Pointer(root))
	}
	given := (*C.struct_composecheck_places)(zeros(C.sizeof_struct_composecheck_places))
	defer C.free(unsafe.Pointer(given))
	given.system, given.locale, given.home, given.sysroot = texts[1], texts[2], texts[3], texts[4]
	var length C.size_t
	var fault C.struct_composecheck_fault
	var said [1024]C.char
	made := C.composecheck_table_from_file(root, given, true, &length, &fault, &said[0], C.size_t(len(said)))
	if made == nil {
		return nil, faultOf(&fault, C.GoString(&said[0]))
	}
	return owned(made, length, nil)
}

// FromBytes returns the table of a block, a copy of these bytes, which may be any: from a file, a cache or another process. An error if they are none.
func FromBytes(block []byte) (*Table, error) {
	var fault C.struct_composecheck_fault
	kept := C.CBytes(append(block[:len(block):len(block)], 0))
	defer C.free(kept)
	made := C.composecheck_table_copy(kept, C.size_t(len(block)), &fault)
	if made == nil && fault.part == C.COMPOSECHECK_TABLE {
		return nil, faultOf(&fault, "the bytes are no table")
	} else if made == nil {
		return nil, faultOf(&fault, "")
	}
	return owned(made, C.size_t(len(block)), nil)
}

// Bytes returns a copy of the table's block, which may be kept in a file, and sent.
func (table *Table) Bytes() []byte {
	defer runtime.KeepAlive(table)
	return append([]byte(nil), unsafe.Slice((*byte)(table.block), int(table.length))...)
}

// New returns the table of sources, the root first. The longer of two sequences counts of which one is a prefix of the other.
func New(sources ...Source) (*Table, error) {
	return read(nil, sources, Move{})
}

// Load returns the table of sources if the certificate is valid for a move to it from this one, so that nobody who types sees a difference that it
// doesn't say.
func (table *Table) Load(sources []Source, shown Move) (*Table, error) {
	defer runtime.KeepAlive(table)
	return read(table, sources, shown)
}

// Check returns an error unless the certificate is valid for a move from this table to the new one.
func (table *Table) Check(new *Table, shown Move) error {
	defer runtime.KeepAlive(table)
	defer runtime.KeepAlive(new)
	input, err := newInput(nil, shown)
	defer input.free()
	if err != nil {
		return err
	}
	var fault C.struct_composecheck_fault
	if !C.composecheck_table_check(table.block, table.length, new.block, new.length, input.given, &fault) {
		return faultOf(&fault, "")
	}
	return nil
}

func read(inUse *Table, sources []Source, shown Move) (*Table, error) {
	input, err := newInput(sources, shown)
	defer input.free()
	if err != nil {
		return nil, err
	}
	var fault C.struct_composecheck_fault
	var length C.size_t
	var made unsafe.Pointer
	if inUse == nil {
		made = C.composecheck_table_new(input.given, &length, &fault)
	} else {
		made = C.composecheck_table_load(inUse.block, inUse.length, input.given, &length, &fault)
	}
	if made == nil {
		return nil, faultOf(&fault, input.sentence())
	}
	return owned(made, length, nil)
}

// owned returns what a call made, which is freed with its last user, or the fault where it made nothing.
func owned(made unsafe.Pointer, length C.size_t, fault *Fault) (*Table, error) {
	if made == nil {
		return nil, fault
	}
	table := &Table{made, length}
	runtime.SetFinalizer(table, func(it *Table) { C.composecheck_table_free(it.block) })
	return table, nil
}

// texts are texts in C's memory, as it takes no pointers into Go's; "" is null.
type texts []*C.char

func newTexts(given ...string) (texts, error) {
	var made texts
	for _, it := range given {
		if strings.IndexByte(it, 0) >= 0 {
			return made, ErrZeroByte
		}
		if it == "" {
			made = append(made, nil)
		} else {
			made = append(made, C.CString(it))
		}
	}
	return made, nil
}

func (made texts) free() {
	for _, it := range made {
		C.free(unsafe.Pointer(it))
	}
}
