package composecheck

import (
	"errors"
	"os"
	"path/filepath"
	"reflect"
	"runtime"
	"strings"
	"sync"
	"testing"
)

const certificate = "compose-certificate 1\nbound 1\npairs 2\n0 0\n1 1\ntypings 0\n"

func table(t *testing.T, text string) *Table {
	t.Helper()
	made, err := New(Source{"root", []byte(text)})
	if err != nil {
		t.Fatal(err)
	}
	return made
}

type step struct {
	fed    FeedResult
	status Status
	text   string
	keysym uint32
}

func expect(t *testing.T, what string, got, wanted any) {
	t.Helper()
	if !reflect.DeepEqual(got, wanted) {
		t.Errorf("%s: got %v, not %v", what, got, wanted)
	}
}

func TestSequences(t *testing.T) {
	state := NewState(table(t, "<Multi_key> <apostrophe> <e> : \"é\"\n<a> : \"xyz\"\n"))
	for _, it := range []struct {
		keysym uint32
		wanted step
	}{
		{0xff20, step{Accepted, Composing, "", 0}}, {0xffe1, step{Ignored, Composing, "", 0}}, {0x27, step{Accepted, Composing, "", 0}},
		{0x65, step{Accepted, Composed, "é", 0xe9}}, {0xffe1, step{Ignored, Composed, "é", 0xe9}}, {0x61, step{Accepted, Composed, "xyz", 0}},
		{0x78, step{Accepted, Nothing, "", 0}}, {0xff20, step{Accepted, Composing, "", 0}}, {0x78, step{Accepted, Cancelled, "", 0}},
		{0xff20, step{Accepted, Composing, "", 0}}, {0x20000000, step{Accepted, Cancelled, "", 0}}, {0xffffffff, step{Accepted, Nothing, "", 0}},
	} {
		expect(t, "a key", step{state.Feed(it.keysym), state.Status(), state.UTF8(), state.Keysym()}, it.wanted)
	}
	state.Feed(0xff20)
	state.Feed(0x27)
	expect(t, "pending", state.Pending(), []uint32{0xff20, 0x27})
	expect(t, "following", state.Following(), []Following{{0x65, Composed, "é"}})
	state.Reset()
	expect(t, "after a reset", step{Accepted, state.Status(), state.UTF8(), state.Keysym()}, step{Accepted, Nothing, "", 0})
}

func TestMove(t *testing.T) {
	old, shown := table(t, "<a> <b> : \"x\"\n"), Move{[]byte(certificate), nil}
	new, err := old.Load([]Source{{"r", []byte("<a> <b> : \"x\"\n<a> <c> : \"y\"\n")}}, shown)
	if err != nil {
		t.Fatal(err)
	}
	expect(t, "a valid certificate", old.Check(new, shown), nil)
	state := NewState(old)
	state.Feed(0x61)
	state.Refeed(new)
	state.Feed(0x63)
	expect(t, "a sequence that a load brought", state.UTF8(), "y")
	var fault *Fault
	_, err = old.Load([]Source{{"r", []byte("<a> <b> : \"z\"\n")}}, shown)
	if !errors.As(err, &fault) || fault.Part != Condition || fault.Code != 7 || fault.At != 1 || fault.Value != 0x62 {
		t.Errorf("a load that changes a text: %v", err)
	}
	if err = old.Check(table(t, "<a> <b> : \"z\"\n"), shown); !errors.As(err, &fault) || fault.Part != Condition {
		t.Errorf("a certificate for another table: %v", err)
	}
}

func TestRefusals(t *testing.T) {
	var fault *Fault
	_, err := New(Source{"root", []byte("<a> : \"x\"\n  <nosuch> : \"y\"\n")})
	if !errors.As(err, &fault) || fault.Part != InSource || fault.Code != 4 || fault.Line != 2 || fault.Column != 3 || err.Error() != `no keysym has the name "nosuch"` {
		t.Errorf("an unknown name: %v", err)
	}
	_, err = New(Source{"a\x00b", nil})
	expect(t, "a name with a zero byte", err, ErrZeroByte)
	for _, path := range []string{"/nowhere/table", ""} {
		if _, err = FromFile(path, Places{}); !errors.As(err, &fault) || fault.Part != Search {
			t.Errorf("no file: %v", err)
		}
	}
}

func TestTableOfUser(t *testing.T) {
	system := t.TempDir()
	for name, text := range map[string]string{"compose.dir": "Compose: en_US.UTF-8\n", "Compose": "<nosuch> : \"x\"\n<a> : \"é\"\n"} {
		if err := os.WriteFile(filepath.Join(system, name), []byte(text), 0o644); err != nil {
			t.Fatal(err)
		}
	}
	for _, name := range []string{"XCOMPOSEFILE", "XDG_CONFIG_HOME", "HOME"} {
		t.Setenv(name, "")
	}
	var leftOut []uint64
	made, err := FromLocaleWith("C", Options{System: system, Report: func(it *Fault) { leftOut = append(leftOut, it.Line) }})
	if err != nil {
		t.Fatal(err)
	}
	expect(t, "lines that are left out", leftOut, []uint64{1})
	state := NewState(made)
	state.Feed(0x61)
	expect(t, "a text", state.UTF8(), "é")
	if _, err = FromLocaleWith("C", Options{System: system, IsStrict: true}); err == nil || !strings.HasSuffix(err.Error(), `:1:1: no keysym has the name "nosuch"`) {
		t.Errorf("a strict table: %v", err)
	}
	if _, err = FromLocaleWith("xx", Options{System: system}); err == nil || err.Error() != "there is no Compose file for the locale xx" {
		t.Errorf("no table: %v", err)
	}
}

func TestCachedTable(t *testing.T) {
	system, caches := t.TempDir(), t.TempDir()
	for name, text := range map[string]string{"compose.dir": "Compose: en_US.UTF-8\n", "Compose": "<a> : \"é\"\n"} {
		if err := os.WriteFile(filepath.Join(system, name), []byte(text), 0o644); err != nil {
			t.Fatal(err)
		}
	}
	for _, name := range []string{"XCOMPOSEFILE", "XDG_CONFIG_HOME", "HOME"} {
		t.Setenv(name, "")
	}
	t.Setenv("XDG_CACHE_HOME", caches)
	for count := 0; count < 2; count++ {
		made, err := FromLocaleWith("C", Options{System: system, IsCached: true})
		if err != nil {
			t.Fatal(err)
		}
		expect(t, "a table of the cache", made.Bytes(), table(t, "<a> : \"é\"\n").Bytes())
		found, err := os.ReadDir(filepath.Join(caches, "composecheck"))
		expect(t, "the files of the cache", []any{len(found), err}, []any{1, nil})
	}
}

func TestBytes(t *testing.T) {
	made := table(t, "<a> <b> : \"é\"\n<c> : \"xyz\" F1\n")
	block := made.Bytes()
	copied, err := FromBytes(block)
	if err != nil {
		t.Fatal(err)
	}
	expect(t, "the bytes of a copy", copied.Bytes(), block)
	state := NewState(copied)
	expect(t, "a key on a copy", step{state.Feed(0x63), state.Status(), state.UTF8(), state.Keysym()}, step{Accepted, Composed, "xyz", 0xffbe})
	var fault *Fault
	for _, other := range [][]byte{nil, block[1:], block[:len(block)-8], append(block[:len(block):len(block)], 0)} {
		if _, err = FromBytes(other); !errors.As(err, &fault) || fault.Part != InTable || fault.Code != 1 || err.Error() != "the bytes are no table" {
			t.Errorf("bytes that are no table: %v", err)
		}
	}
}

func TestGoroutines(t *testing.T) {
	shared := table(t, "<a> <b> : \"é\"\n")
	var group sync.WaitGroup
	for index := 0; index < 4; index++ {
		group.Add(1)
		go func(state *State) {
			defer group.Done()
			for count := 0; count < 1000; count++ {
				state.Feed(0x61)
				state.Feed(0x62)
				if state.UTF8() != "é" {
					t.Error("a text of a goroutine")
				}
				if count%100 == 0 {
					runtime.GC()
				}
			}
		}(NewState(shared))
	}
	shared = nil
	group.Wait()
}

func TestTextsOfKeys(t *testing.T) {
	for keysym, wanted := range map[uint32]string{0x61: "a", 0x7e1: "α", 0x10020ac: "€", 0xff20: "", 0xffffffff: ""} {
		expect(t, "the text of a key", KeyText(keysym), wanted)
	}
}
