package tracehost

import (
	"errors"
	"fmt"
	"strings"
	"testing"
)

// wordsOf are the words of a line for what a typed call returned, by docs/FORMAT.md, section 7.
func wordsOf(reply Reply, err error) string {
	var errno Errno
	switch {
	case errors.As(err, &errno):
		name := map[Errno]string{1: "EPERM", 3: "ESRCH", 10: "ECHILD", 16: "EBUSY", 22: "EINVAL", 35: "EAGAIN"}[errno]
		return fmt.Sprintf("error %s %d", name, errno)
	case err == ErrHeld:
		return "held"
	case err != nil:
		return err.Error()
	}
	switch r := reply.(type) {
	case Ok:
		return "ok"
	case New:
		return fmt.Sprintf("new %d %d", r.Pid, r.Lwp)
	case Number:
		return fmt.Sprintf("number %d", r.Number)
	case Status:
		return fmt.Sprintf("status %d %d", r.Pid, uint32(r.Status))
	case Nothing:
		return "nothing"
	case LwpInfo:
		event := map[bool]string{true: "SIGNAL", false: "NONE"}[r.Reports]
		return fmt.Sprintf("info %d %s flags=%s mask=%s pending=%s child=%d code=%d", r.Lwp, event, plus(r.Flags),
			numbersOf(r.Blocked), numbersOf(r.Pending), r.Child, r.Code)
	case Lwps:
		return listed("lwps", r.Lwps)
	case Pids:
		return listed("pids", r.Pids)
	case Mask:
		return "mask " + plus(r.Events)
	case Handled:
		by := "none"
		if r.Handler >= 0 {
			by = fmt.Sprint(r.Handler)
		}
		return fmt.Sprintf("handled %d %d at %d signal=%d flags=%s child=%d code=%d by %s %s", r.Pid, uint32(r.Status), r.Lwp,
			uint32(r.Signal), plus(r.Flags), r.Child, r.Code, by, decided(r))
	case Stopped:
		return fmt.Sprintf("stopped %d %d flags=%s", r.Lwp, uint32(r.Signal), plus(r.Flags))
	case Caught:
		return fmt.Sprintf("caught %d", uint32(r.Signal))
	case Ended:
		return fmt.Sprintf("ended %d", uint32(r.Status))
	}
	return fmt.Sprintf("no reply: %v", reply)
}

func decided(r Handled) string {
	switch r.Decision {
	case Continue:
		return fmt.Sprintf("continue %d", uint32(r.Pass))
	case Detach:
		return fmt.Sprintf("detach %d", uint32(r.Pass))
	}
	return map[Decision]string{Decline: "decline", Leave: "leave", Kill: "kill"}[r.Decision]
}

func listed(word string, numbers []uint32) string {
	for _, number := range numbers {
		word += fmt.Sprintf(" %d", number)
	}
	return word
}

func plus(names fmt.Stringer) string {
	if names.String() == "" {
		return "none"
	}
	return strings.ReplaceAll(names.String(), "|", "+")
}

func numbersOf(set SignalSet) string {
	var numbers []string
	for signal := Signal(1); signal <= LastSignal; signal++ {
		if set.Has(signal) {
			numbers = append(numbers, fmt.Sprint(uint32(signal)))
		}
	}
	if numbers == nil {
		return "none"
	}
	return strings.Join(numbers, ",")
}

func opened(t *testing.T) *Session {
	t.Helper()
	s, err := Open()
	if err != nil {
		t.Fatal(err)
	}
	t.Cleanup(func() { s.Close() })
	return s
}

// must returns a call's value, if it has no error.
func must[T any](value T, err error) func(*testing.T) T {
	return func(t *testing.T) T {
		t.Helper()
		if err != nil {
			t.Fatal(err)
		}
		return value
	}
}

func same[T any](t *testing.T, got, wanted T) {
	t.Helper()
	if any(got) != any(wanted) {
		t.Errorf("got %v, wanted %v", got, wanted)
	}
}

func is(t *testing.T, err, target error) {
	t.Helper()
	if !errors.Is(err, target) {
		t.Errorf("got the error %v, wanted %v", err, target)
	}
}

// traced is a user's debugger that has attached to a target, and collected its stop.
func traced(t *testing.T, user User) (debugger Process, target New) {
	t.Helper()
	debugger = user.Process(must(user.Spawn())(t).Pid)
	target = must(user.Spawn())(t)
	is(t, debugger.PtraceAttach(target.Pid), nil)
	pid, status, err := debugger.Wait4(Any, 0)
	if pid != target.Pid || status.StopSignal() != SIGSTOP || err != nil {
		t.Fatal(pid, status, err)
	}
	return debugger, target
}
