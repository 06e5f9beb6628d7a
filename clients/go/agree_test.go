package tracehost

import (
	"fmt"
	"math/rand"
	"os"
	"path/filepath"
	"testing"
)

// A made session is a random one by typed calls, with processes and LWPs that may be there.
type made struct {
	*rand.Rand
	*Session
	users int
}

// pid is one of the user's, or nearly any other number.
func (m made) pid(user uint32) uint32 {
	view, _ := m.User(user).View()
	if len(view.Processes) == 0 || m.Intn(20) == 0 {
		return []uint32{0, 1, FirstProcess, LastProcess, FirstLwp + m.Uint32()%300000, m.Uint32()}[m.Intn(6)]
	}
	return view.Processes[m.Intn(1+m.Intn(len(view.Processes)))].Pid // more often an old one
}

func (m made) lwp(user uint32) uint32 {
	view, _ := m.User(user).View()
	if len(view.Lwps) == 0 || m.Intn(20) == 0 {
		return m.pid(user)
	}
	return view.Lwps[m.Intn(len(view.Lwps))].Lwp
}

// pair is a caller and a target: a debugger and its tracee, if there is one, or any two. The target may be an LWP.
func (m made) pair(user uint32) (caller, target uint32) {
	caller, target = m.pid(user), m.pid(user)
	view, _ := m.User(user).View()
	for _, row := range view.Processes {
		if row.Tracer != 0 && m.Intn(3) > 0 {
			caller, target = row.Tracer, row.Pid
		}
	}
	if m.Intn(8) == 0 {
		target = m.lwp(user)
	}
	return caller, target
}

func (m made) signal() Signal {
	if m.Intn(40) == 0 {
		return Signal(m.Uint32())
	}
	return []Signal{0, 0, SIGSTOP, SIGCONT, SIGWINCH, SIGUSR1, SIGCHLD, SIGTRAP, Signal(m.Intn(34))}[m.Intn(9)]
}

func (m made) which(user uint32) int64 {
	return []int64{Any, Any, int64(m.pid(user)), int64(m.pid(user)), -int64(m.Intn(3000))}[m.Intn(5)]
}

func (m made) act() Act {
	calls := []Call{Fork, Vfork, Exec, ThrNew, ThrExit, Exit(uint8(m.Intn(256))), Other(m.Uint32() % 600)}
	acts := []Act{Compute, LeaveCall, LeaveCall, Raise(m.signal()), Block(SignalSet(m.Uint32() & 0x7fffffff)), Enter(calls[m.Intn(7)])}
	return acts[m.Intn(len(acts))]
}

func (m made) requested(user User) (Reply, error) {
	caller, target := m.pair(user.uid)
	debugger, set := user.Process(caller), m.Intn(2) == 0
	switch m.Intn(14) {
	case 0:
		if m.Intn(8) == 0 {
			return done(debugger.PtraceTraceMe())
		}
		lwps, err := debugger.PtraceGetLwpList(target, uint32(m.Intn(5)))
		return Lwps{lwps}, err
	case 1, 2, 3:
		return done(debugger.PtraceAttach(target))
	case 4:
		return done(debugger.PtraceSetEventMask(target, EventMask(m.Intn(64))))
	case 5:
		return debugger.PtraceLwpInfo(target)
	case 6:
		return done(debugger.PtraceFollowFork(target, set))
	case 7, 8, 9:
		return done(debugger.PtraceContinue(target, []Signal{0, 0, m.signal()}[m.Intn(3)]))
	case 10:
		number, err := debugger.PtraceGetNumLwps(target)
		return Number{number}, err
	case 11:
		mask, err := debugger.PtraceGetEventMask(target)
		return Mask{mask}, err
	}
	one := requestNames[m.Intn(len(requestNames))]
	return debugger.Ptrace(Request(one.number), target, uint32(m.Intn(33))) // of PT_SET_EVENT_MASK: events
}

func (m made) rules() (rules []Rule) {
	for count := m.Intn(4); count > 0; count-- {
		flags := StopFlag(0)
		if m.Intn(2) == 0 {
			flags = flagBits[m.Intn(len(flagBits))].flag
		}
		rules = append(rules, Rule{flags, Signal(m.Intn(32)), Decision(m.Intn(5)), Signal(m.Intn(32))})
	}
	return rules
}

func (m made) step() (uint32, Reply, error) {
	uid := FirstUser + uint32(m.Intn(m.users))
	user := m.User(uid)
	process := user.Process(m.pid(uid))
	reply, err := func() (Reply, error) {
		switch m.Intn(18) {
		case 0:
			return user.Spawn()
		case 1:
			pids, err := process.List()
			return Pids{pids}, err
		case 2:
			return done(process.Sigaction(m.signal(), []Disposition{SIG_DFL, SIG_IGN, SIG_CATCH, SIG_CATCH}[m.Intn(4)]))
		case 3:
			return done(process.Kill(int64(m.pid(uid)), m.signal()))
		case 4, 5, 6:
			caller, _ := m.pair(uid)
			pid, status, err := user.Process(caller).Wait4(m.which(uid), WaitOption(m.Intn(8)))
			if pid == 0 {
				return Nothing{}, err
			}
			return Status{pid, status}, err
		case 7:
			return done(process.Install(m.rules()...))
		case 8:
			caller, _ := m.pair(uid)
			return user.Process(caller).Handle()
		case 9, 10, 11:
			return user.Turn(m.lwp(uid), m.act())
		}
		return m.requested(user)
	}()
	return uid, reply, err
}

// TestRandomSessions compares what typed calls return with the lines of the same steps by text in a second session. If
// TRACEHOST_RECORDS names a folder, their scenarios are left there with the lines of what the calls have returned.
func TestRandomSessions(t *testing.T) {
	const sessions, steps = 100, 300
	folder, kinds := os.Getenv("TRACEHOST_RECORDS"), map[string]int{}
	for seed := int64(0); seed < sessions; seed++ {
		s, second := opened(t), opened(t)
		m := made{rand.New(rand.NewSource(seed)), s, 1 + int(seed%3)}
		counts, lines := map[uint32]int{}, ""
		if folder != "" {
			name := filepath.Join(folder, fmt.Sprint(seed))
			is(t, s.Record(name+".json", filepath.Join(t.TempDir(), "lines")), nil)
		}
		for i := 0; i < steps; i++ {
			uid, reply, err := m.step()
			counts[uid]++
			words := wordsOf(reply, err)
			line := fmt.Sprintf("%d %d %s", uid, counts[uid], words)
			if other := must(second.Line(must(s.LastStep())(t)))(t); line != other {
				t.Fatalf("seed %d, step %d: %s returns %s, and its line %s", seed, i, must(s.LastStep())(t), line, other)
			}
			kinds[kindOf(words)]++
			lines += line + "\n"
		}
		if folder != "" {
			is(t, os.WriteFile(filepath.Join(folder, fmt.Sprint(seed, ".out")), []byte(lines), 0o666), nil)
		}
		s.Close()
		second.Close()
	}
	for _, kind := range []string{"ok", "new", "number", "status", "nothing", "info", "lwps", "pids", "mask", "handled", "stopped",
		"caught", "ended", "held", "error"} {
		if kinds[kind] < 10 {
			t.Errorf("only %d replies %s", kinds[kind], kind)
		}
	}
}

func kindOf(words string) (kind string) {
	fmt.Sscan(words, &kind)
	return kind
}
