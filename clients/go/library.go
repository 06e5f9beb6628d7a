package tracehost

/*
#cgo pkg-config: tracehost
#include <tracehost.h>
*/
import "C"

import (
	"io/fs"
	"runtime"
	"strings"
	"sync/atomic"
)

// A Code is why the library hasn't answered a call.
type Code uint32

const (
	ErrNotOpen  Code = C.TRACEHOST_NOT_OPEN  // the session is closed
	ErrNoMemory Code = C.TRACEHOST_NO_MEMORY // and no step was made
	ErrInvalid  Code = C.TRACEHOST_INVALID   // a user, a request, a rule or another number that doesn't exist
	ErrNoText   Code = C.TRACEHOST_NO_TEXT   // the step was made: LastLine returns its line
	ErrTooMany  Code = C.TRACEHOST_TOO_MANY  // the user has had 2^64 - 1 answers
)

func (c Code) Error() string {
	return "tracehost: " + C.GoString(C.tracehost_strerror(C.uint32_t(c)))
}

// Is reports whether the target is what package os calls such an error.
func (c Code) Is(target error) bool {
	return target == fs.ErrClosed && c == ErrNotOpen || target == fs.ErrInvalid && c == ErrInvalid
}

// check returns the error for a code of the library.
func check(code C.uint32_t) error {
	if code == C.TRACEHOST_ANSWERED {
		return nil
	}
	return Code(code)
}

var sessions atomic.Uint64

func newSession(kills bool) *Session {
	s := &Session{number: sessions.Add(1), kills: kills, handle: new(C.tracehost), raw: new(C.tracehost_reply)}
	runtime.SetFinalizer(s, (*Session).Close)
	return s
}

// locked locks the session, and returns what unlocks it.
func (s *Session) locked() func() {
	s.mutex.Lock()
	return s.mutex.Unlock
}

// A call is what all calls that make a step are given.
type call struct {
	h            *C.tracehost
	user, caller C.uint32_t
	reply        *C.tracehost_reply
}

// step makes a step, records it, and returns its reply.
func (s *Session) step(user, caller uint32, make func(c call) C.uint32_t) (Reply, error) {
	defer s.locked()()
	if s.failure != nil {
		return nil, s.failure
	}
	if err := check(make(call{s.handle, C.uint32_t(user), C.uint32_t(caller), s.raw})); err != nil {
		return nil, err
	}
	if err := s.recorded(); err != nil {
		return nil, err
	}
	switch s.raw.kind {
	case C.TRACEHOST_HELD:
		return nil, ErrHeld
	case C.TRACEHOST_ERROR:
		return nil, Errno(s.raw.error)
	}
	return replyOf(s.raw, s.numbers), nil
}

func (s *Session) numbers() []uint32 {
	numbers, _ := stored(int(s.raw.count), func(out *uint32, size C.size_t, length *C.size_t) C.uint32_t {
		return C.tracehost_numbers(s.handle, (*C.uint32_t)(out), size, length)
	})
	return numbers
}

// stored returns all that a call stores, with room for so many items at first.
func stored[T any](size int, store func(out *T, size C.size_t, length *C.size_t) C.uint32_t) ([]T, error) {
	for {
		room, length := make([]T, size+1), C.size_t(0) // a pointer to the first is never null
		if err := check(store(&room[0], C.size_t(len(room)), &length)); err != nil {
			return nil, err
		}
		if int(length) <= len(room) {
			return room[:length], nil
		}
		size = int(length)
	}
}

// text returns the text that a call stores, without its line feed.
func text(store func(out *C.uint8_t, size C.size_t, length *C.size_t) C.uint32_t) (string, error) {
	bytes, err := stored(127, func(out *byte, size C.size_t, length *C.size_t) C.uint32_t {
		return store((*C.uint8_t)(out), size, length)
	})
	return strings.TrimSuffix(string(bytes), "\n"), err
}

// given is a text as the library takes it: a pointer that isn't null, and its length.
func given(text string) (*C.uint8_t, C.size_t) {
	bytes := append([]byte(text), 0)
	return (*C.uint8_t)(&bytes[0]), C.size_t(len(text))
}

// Explain returns why a line isn't a step, as tracehost --lines --explain prints it: lines that call it by this number. It is
// empty if the line is a step.
func Explain(line string, number int) (string, error) {
	bytes, length := given(line)
	return text(func(out *C.uint8_t, size C.size_t, stored *C.size_t) C.uint32_t {
		return C.tracehost_explain(bytes, length, C.size_t(number), out, size, stored)
	})
}

// Line makes the step that the line is, docs/FORMAT.md, and returns the line of its answer in words. A line that is no step is
// answered by refused FAULT.
func (s *Session) Line(step string) (string, error) {
	return s.answer(step, false)
}

// JSONLine is Line with the answer as a JSON object.
func (s *Session) JSONLine(step string) (string, error) {
	return s.answer(step, true)
}

func (s *Session) answer(step string, json bool) (string, error) {
	defer s.locked()()
	if s.failure != nil {
		return "", s.failure
	}
	bytes, length := given(step)
	var none C.uint8_t
	var whole C.size_t
	made := check(C.tracehost_line(s.handle, C.bool(json), bytes, length, &none, 0, &whole))
	if made != nil && made != ErrNoText {
		return "", made
	}
	if err := first(s.recorded(), made); err != nil {
		return "", err
	}
	return s.lastLine(json)
}

// LastLine returns the line of the last answer in words, whatever call made it; empty before any answer. It makes no step.
func (s *Session) LastLine() (string, error) {
	defer s.locked()()
	return s.lastLine(false)
}

// LastJSONLine is LastLine as a JSON object.
func (s *Session) LastJSONLine() (string, error) {
	defer s.locked()()
	return s.lastLine(true)
}

func (s *Session) lastLine(json bool) (string, error) {
	return text(func(out *C.uint8_t, size C.size_t, length *C.size_t) C.uint32_t {
		return C.tracehost_last_line(s.handle, C.bool(json), out, size, length)
	})
}

// LastStep returns the line of the step that was answered last, whatever call made it. Given to Line, it is this step. It is
// empty before any answer, after a line that was refused, and for a mask with bits that no event has.
func (s *Session) LastStep() (string, error) {
	defer s.locked()()
	return s.lastStep()
}

func (s *Session) lastStep() (string, error) {
	step, err := text(func(out *C.uint8_t, size C.size_t, length *C.size_t) C.uint32_t {
		return C.tracehost_last_step(s.handle, out, size, length)
	})
	if err == ErrInvalid {
		return "", nil
	}
	return step, err
}
