package tracehost

import (
	"bufio"
	"fmt"
	"os"
	"path/filepath"
	"strings"
	"testing"
)

// words are those of a step, as clients/c/tests/words.py writes them.
type words struct{ *bufio.Scanner }

func (w words) word() string {
	w.Scan()
	return w.Text()
}

func (w words) number() (number int64) {
	fmt.Sscan(w.word(), &number)
	return number
}

func (w words) act() Act {
	switch w.word() {
	case "raise":
		return Raise(Signal(w.number()))
	case "block":
		return Block(SignalSet(w.number()))
	case "enter":
		number, code := w.number(), w.number()
		return Enter([]Call{Exit(uint8(code)), Fork, Vfork, Exec, ThrNew, ThrExit, Other(uint32(code))}[number])
	case "leave":
		return LeaveCall
	}
	return Compute
}

func (w words) rules() (rules []Rule) {
	for count := w.number(); count > 0; count-- {
		signal, flags, decision, pass := w.number(), w.number(), w.number(), w.number()
		rules = append(rules, Rule{StopFlag(flags), Signal(signal), Decision(decision), Signal(pass)})
	}
	return rules
}

// done is the reply of a call that has no value, or one value.
func done(err error) (Reply, error) { return Ok{}, err }

func (w words) requested(debugger Process) (Reply, error) {
	request, target, data := Request(w.number()), uint32(w.number()), uint32(w.number())
	switch request {
	case PT_TRACE_ME:
		return done(debugger.PtraceTraceMe())
	case PT_ATTACH:
		return done(debugger.PtraceAttach(target))
	case PT_CONTINUE:
		return done(debugger.PtraceContinue(target, Signal(data)))
	case PT_DETACH:
		return done(debugger.PtraceDetach(target, Signal(data)))
	case PT_GETNUMLWPS:
		number, err := debugger.PtraceGetNumLwps(target)
		return Number{number}, err
	case PT_GETLWPLIST:
		lwps, err := debugger.PtraceGetLwpList(target, data)
		return Lwps{lwps}, err
	case PT_LWPINFO:
		return debugger.PtraceLwpInfo(target)
	case PT_SET_EVENT_MASK:
		return done(debugger.PtraceSetEventMask(target, EventMask(data)))
	case PT_GET_EVENT_MASK:
		mask, err := debugger.PtraceGetEventMask(target)
		return Mask{mask}, err
	case PT_FOLLOW_FORK:
		return done(debugger.PtraceFollowFork(target, data != 0))
	}
	return debugger.Ptrace(request, target, data)
}

// typed makes the step of the words by a typed call.
func typed(s *Session, text string) (Reply, error) {
	w := words{bufio.NewScanner(strings.NewReader(text))}
	w.Split(bufio.ScanWords)
	op, user := w.word(), s.User(uint32(w.number()))
	switch op {
	case "spawn":
		return user.Spawn()
	case "turn":
		return user.Turn(uint32(w.number()), w.act())
	}
	process := user.Process(uint32(w.number()))
	switch op {
	case "ptrace":
		return w.requested(process)
	case "wait4":
		pid, status, err := process.Wait4(w.number(), WaitOption(w.number()))
		if pid == 0 {
			return Nothing{}, err
		}
		return Status{pid, status}, err
	case "kill":
		return done(process.Kill(w.number(), Signal(w.number())))
	case "sigaction":
		return done(process.Sigaction(Signal(w.number()), Disposition(w.number())))
	case "list":
		pids, err := process.List()
		return Pids{pids}, err
	case "install":
		return done(process.Install(w.rules()...))
	}
	return process.Handle()
}

// TestScenarios makes each scenario by typed calls, and compares the lines of what they return. tests/python/test_go.py names the
// folder.
func TestScenarios(t *testing.T) {
	folder := os.Getenv("TRACEHOST_WORDS")
	if folder == "" {
		t.Skip("tests/python/test_go.py names the folder in TRACEHOST_WORDS")
	}
	names, _ := filepath.Glob(filepath.Join(folder, "*.calls"))
	calls := 0
	for _, name := range names {
		read := func(kind string) []string {
			text := must(os.ReadFile(strings.TrimSuffix(name, "calls") + kind))(t)
			return strings.FieldsFunc(string(text), func(one rune) bool { return one == '\n' })
		}
		s := opened(t)
		if read("setting")[0] == "0" {
			s = must(OpenDetaching())(t)
		}
		text, wanted, counts := read("text"), read("out"), map[string]int{}
		for i, step := range read("calls") {
			got := ""
			if strings.HasPrefix(step, "{") {
				got = must(s.Line(text[i]))(t)
				counts[strings.Fields(got)[0]]++
			} else {
				user := strings.Fields(step)[1]
				counts[user]++
				calls++
				got = fmt.Sprintf("%s %d %s", user, counts[user], wordsOf(typed(s, step)))
			}
			if got != wanted[i] {
				t.Fatalf("%s: step %d, %s: got %s, wanted %s", name, i, step, got, wanted[i])
			}
		}
		s.Close()
	}
	fmt.Printf("%d scenarios, %d typed calls\n", len(names), calls)
}
