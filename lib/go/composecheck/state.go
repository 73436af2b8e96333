package composecheck

// #include <composecheck.h>
import "C"

import "runtime"

// A Status says what a state is in the middle of.
type Status uint32

const (
	Nothing   Status = C.COMPOSECHECK_NOTHING
	Composing Status = C.COMPOSECHECK_COMPOSING
	Composed  Status = C.COMPOSECHECK_COMPOSED
	Cancelled Status = C.COMPOSECHECK_CANCELLED
)

func (status Status) String() string {
	return [...]string{"nothing", "composing", "composed", "cancelled"}[status&3]
}

// A FeedResult says whether a key counts for sequences; a Shift doesn't.
type FeedResult uint32

const (
	Ignored  FeedResult = C.COMPOSECHECK_IGNORED
	Accepted FeedResult = C.COMPOSECHECK_ACCEPTED
)

// Following is a key that may come next, and what it would do.
type Following struct {
	Keysym uint32
	Status Status
	Text   string // the text that it would commit
}

// A State is a compose state over a table, which it keeps. It is used by one goroutine at a time.
type State struct {
	table  *Table
	state  C.struct_composecheck_state
	text   string
	keysym uint32
}

// NewState returns a state at rest.
func NewState(table *Table) *State {
	return &State{table: table}
}

// Feed feeds a key. A number above GreatestKeysym is part of no sequence: it cancels what is pending.
func (state *State) Feed(keysym uint32) FeedResult {
	defer runtime.KeepAlive(state.table)
	if keysym > GreatestKeysym {
		return state.cancel()
	}
	var text [C.COMPOSECHECK_MOST_TEXT]C.uint8_t
	var length C.uint32_t
	result := C.composecheck_table_result(state.table.block, state.table.length, &state.state, C.uint32_t(keysym))
	if C.composecheck_table_feed(state.table.block, state.table.length, &state.state, C.uint32_t(keysym), &text[0], &length) == C.COMPOSECHECK_IGNORED {
		return Ignored
	}
	state.text, state.keysym = textOf(&text, length), uint32(result)
	return Accepted
}

// cancel does what a key does that is part of no sequence.
func (state *State) cancel() FeedResult {
	status := Nothing
	if state.Status() == Composing {
		status = Cancelled
	}
	state.Reset()
	state.state.status = C.uint32_t(status)
	return Accepted
}

// Status returns what the state is in the middle of.
func (state *State) Status() Status {
	return Status(C.composecheck_status(&state.state))
}

// UTF8 returns the text of the sequence that the last key completed; "" if it completed none.
func (state *State) UTF8() string {
	if state.Status() != Composed {
		return ""
	}
	return state.text
}

// Keysym returns its result keysym; 0 if it has none.
func (state *State) Keysym() uint32 {
	if state.Status() != Composed {
		return 0
	}
	return state.keysym
}

// Reset puts the state at rest.
func (state *State) Reset() {
	C.composecheck_reset(&state.state)
	state.text, state.keysym = "", 0
}

// Table returns the table that the state is over.
func (state *State) Table() *Table {
	return state.table
}

// Refeed goes over to another table, also in the middle of a sequence: what is pending is typed anew there, and nothing is committed.
func (state *State) Refeed(table *Table) {
	defer runtime.KeepAlive(table)
	C.composecheck_table_refeed(table.block, table.length, &state.state)
	state.table = table
}

// Pending returns the keysyms that are pending.
func (state *State) Pending() []uint32 {
	var keysyms [C.COMPOSECHECK_MOST_PENDING]C.uint32_t
	pending := make([]uint32, C.composecheck_pending(&state.state, &keysyms[0]))
	for index := range pending {
		pending[index] = uint32(keysyms[index])
	}
	return pending
}

// Following returns the keys that may come next, in rising order.
func (state *State) Following() []Following {
	defer runtime.KeepAlive(state.table)
	var found []Following
	var keysym, status, length C.uint32_t
	var text [C.COMPOSECHECK_MOST_TEXT]C.uint8_t
	block, size := state.table.block, state.table.length
	for index := C.uint32_t(0); C.composecheck_table_following(block, size, &state.state, index, &keysym, &status, &text[0], &length); index++ {
		found = append(found, Following{uint32(keysym), Status(status), textOf(&text, length)})
	}
	return found
}

func textOf(text *[C.COMPOSECHECK_MOST_TEXT]C.uint8_t, length C.uint32_t) string {
	bytes := make([]byte, length)
	for index := range bytes {
		bytes[index] = byte(text[index])
	}
	return string(bytes)
}
