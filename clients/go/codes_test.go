package tracehost

import (
	"os"
	"strings"
	"testing"
)

// TestCodes is of a library that runs out of memory, or returns another code: tests/python/test_go.py links testdata/codes.c.
func TestCodes(t *testing.T) {
	if os.Getenv("TRACEHOST_CODES") == "" {
		t.Skip("tests/python/test_go.py links another library")
	}
	_, err := OpenDetaching()
	is(t, err, ErrNoMemory)
	same(t, err.Error(), "tracehost: no memory")
	s, to := opened(t), opened(t)
	for code, wanted := range map[uint32]error{0: ENOMEM, 2: ErrNoMemory, 3: ErrInvalid, 4: ErrNoText, 5: ErrTooMany} {
		user := s.User(code)
		for name, call := range calls(s, user, user.Process(1)) {
			isRead := name == "view" || name == "rows" || name == "state"
			if err := call(); err != wanted && !(isRead && code == 0 && err == nil) {
				t.Errorf("%s: %v, wanted %v", name, err, wanted)
			}
		}
	}
	_, err = s.Copy()
	is(t, err, ErrNoMemory)
	is(t, s.CopyOver(to), ErrNoMemory)
	is(t, s.User(3).CopyTo(to), ErrInvalid)
	_, err = Explain("x", 1)
	is(t, err, ErrNoMemory)
	for line, wanted := range map[string]error{"2": ErrNoMemory, "4": ErrNoText, "5": ErrTooMany} {
		_, err := s.Line(line)
		is(t, err, wanted)
	}
	same(t, must(s.Line("0"))(t), "1001 1 ok")
	same(t, must(s.JSONLine("0"))(t), strings.Repeat("y", 1000))
	_, err = s.LastStep()
	is(t, err, ErrNoMemory)
	same(t, must(s.LastStep())(t), strings.Repeat("z", 1000))
}
