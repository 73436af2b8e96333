// Package composecheck has Compose tables and compose states by libcomposecheck, whose typing is proved.
//
//	table, err := composecheck.FromLocale("")
//	if err != nil {
//		return err
//	}
//	state := composecheck.NewState(table)
//	for _, keysym := range []uint32{0xff20, 0x27, 0x65} {
//		state.Feed(keysym)
//	}
//	if state.Status() == composecheck.Composed {
//		fmt.Println(state.UTF8())
//	}
//
// A key that is part of no sequence commits no text here; KeyText has the text of such a key. The library is found by pkg-config.
package composecheck

// #cgo pkg-config: composecheck
// #include <composecheck.h>
import "C"

// GreatestKeysym is the greatest number of a keysym.
const GreatestKeysym = C.COMPOSECHECK_GREATEST_KEYSYM

// KeyText returns the text of a key that is part of no sequence, by the names that are built in; "" if it has none. It takes as long as reading these
// names.
func KeyText(keysym uint32) string {
	var text [5]C.char
	length := C.composecheck_key_text(C.uint32_t(keysym), &text[0])
	return C.GoStringN(&text[0], C.int(length))
}
