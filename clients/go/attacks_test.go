package tracehost

import (
	"math"
	"sync"
	"testing"
)

// calls are all methods that ask the library, by a user and a process of a session.
func calls(s *Session, user User, process Process) map[string]func() error {
	steps := map[string]func() error{
		"spawn":     func() error { _, err := user.Spawn(); return err },
		"turn":      func() error { _, err := user.Turn(FirstLwp, Compute); return err },
		"list":      func() error { _, err := process.List(); return err },
		"sigaction": func() error { return process.Sigaction(SIGTERM, SIG_IGN) },
		"kill":      func() error { return process.Kill(Any, SIGTERM) },
		"wait4":     func() error { _, _, err := process.Wait4(Any, 0); return err },
		"install":   func() error { return process.Install() },
		"handle":    func() error { _, err := process.Handle(); return err },
		"decide":    func() error { _, err := process.HandleWith(nil); return err },
		"attach":    func() error { return process.PtraceAttach(FirstProcess) },
		"view":      func() error { _, err := user.View(); return err },
		"rows":      func() error { _, err := user.Rows(); return err },
		"state":     func() error { _, err := user.State(); return err },
	}
	return steps
}

func TestAfterClose(t *testing.T) {
	s, to := opened(t), opened(t)
	user := s.User(1001)
	process := user.Process(must(user.Spawn())(t).Pid)
	is(t, s.Close(), nil)
	all := calls(s, user, process)
	all["line"] = func() error { _, err := s.Line(`{"user":1001,"op":"spawn"}`); return err }
	all["last line"] = func() error { _, err := s.LastLine(); return err }
	all["last step"] = func() error { _, err := s.LastStep(); return err }
	all["copy"] = func() error { _, err := s.Copy(); return err }
	all["copy over"] = func() error { return s.CopyOver(to) }
	all["copy onto"] = func() error { return to.CopyOver(s) }
	all["copy user"] = func() error { return user.CopyTo(to) }
	all["record"] = func() error { return s.Record(t.TempDir()+"/a", t.TempDir()+"/b") }
	all["close"] = s.Close
	for name, call := range all {
		if err := call(); err != ErrNotOpen {
			t.Errorf("%s: %v", name, err)
		}
	}
	must(to.User(1001).Spawn())(t)
}

func TestUsersWhoDoNotExist(t *testing.T) {
	s := opened(t)
	for _, uid := range []uint32{0, FirstUser - 1, LastUser + 1, math.MaxUint32} {
		user := s.User(uid)
		for name, call := range calls(s, user, user.Process(FirstProcess)) {
			if err := call(); err != ErrInvalid {
				t.Errorf("%d %s: %v", uid, name, err)
			}
		}
	}
}

func TestNumbersThatDoNotExist(t *testing.T) {
	s := opened(t)
	user := s.User(1001)
	debugger, target := traced(t, user)
	for _, number := range []uint32{1, 2, 12, 27, math.MaxUint32} {
		_, err := debugger.Ptrace(Request(number), target.Pid, 0)
		is(t, err, ErrInvalid)
	}
	for _, pid := range []uint32{0, 1, 999, LastProcess, FirstLwp - 1, math.MaxUint32} {
		is(t, debugger.PtraceContinue(pid, 0), ESRCH)
		_, err := user.Process(pid).List()
		is(t, err, ESRCH)
	}
	for which, errnos := range map[int64][2]Errno{math.MinInt64: {EINVAL, EINVAL}, -2: {EINVAL, EINVAL}, 1 << 40: {ESRCH, ECHILD},
		math.MaxInt64: {ESRCH, ECHILD}} {
		is(t, debugger.Kill(which, 0), errnos[0])
		_, _, err := debugger.Wait4(which, 0)
		is(t, err, errnos[1])
	}
	for _, signal := range []Signal{32, 99, math.MaxUint32} {
		is(t, debugger.Kill(int64(target.Pid), signal), EINVAL)
		is(t, debugger.Sigaction(signal, SIG_IGN), EINVAL)
		is(t, debugger.PtraceContinue(target.Pid, signal), EINVAL)
		is(t, debugger.Install(Rule{Signal: signal}), ErrInvalid)
		is(t, debugger.Install(Rule{Decision: Continue, Pass: signal}), ErrInvalid)
	}
	is(t, debugger.Sigaction(SIGTERM, 3), ErrInvalid)
	is(t, debugger.Install(Rule{Decision: 5}), ErrInvalid)
	is(t, debugger.Install(Rule{Flags: 1}), ErrInvalid)
	is(t, debugger.Install(make([]Rule, MaxRules+1)...), ErrInvalid)
	is(t, debugger.PtraceSetEventMask(target.Pid, 0x40), EINVAL)
	_, err := debugger.PtraceGetLwpList(target.Pid, 0)
	is(t, err, EINVAL)
	_, err = user.Turn(math.MaxUint32, Compute)
	is(t, err, ESRCH)
	is(t, debugger.PtraceContinue(target.Pid, 0), nil) // all of them changed nothing
}

func TestGoroutinesShareASession(t *testing.T) {
	const goroutines, spawns = 16, 200
	s := opened(t)
	var group sync.WaitGroup
	for i := 0; i < goroutines; i++ {
		group.Add(1)
		go func(user User) {
			defer group.Done()
			process := user.Process(0)
			for made := 0; made < spawns; made++ {
				found, err := user.Spawn()
				if made == 0 {
					process = user.Process(found.Pid)
				}
				if pids, listErr := process.List(); err != nil || listErr != nil || len(pids) != made+1 {
					t.Error(err, listErr, len(pids), made)
					return
				}
			}
		}(s.User(FirstUser + uint32(i)))
	}
	group.Wait()
	for i := uint32(0); i < goroutines; i++ {
		same(t, len(must(s.User(FirstUser+i).View())(t).Processes), spawns)
	}
}

func TestSessionsAreCopiedOverEachOtherAtOnce(t *testing.T) {
	first, second := opened(t), opened(t)
	must(first.User(1001).Spawn())(t)
	var group sync.WaitGroup
	for i := 0; i < 8; i++ {
		from, to := first, second
		if i%2 == 1 {
			from, to = second, first
		}
		group.Add(1)
		go func() {
			defer group.Done()
			for j := 0; j < 200; j++ {
				if err := from.CopyOver(to); err != nil {
					t.Error(err)
				}
				if err := from.User(1001).CopyTo(to); err != nil {
					t.Error(err)
				}
			}
		}()
	}
	group.Wait()
	same(t, len(must(first.User(1001).View())(t).Processes), len(must(second.User(1001).View())(t).Processes))
}

func TestASessionIsClosedWhileOthersUseIt(t *testing.T) {
	for i := 0; i < 50; i++ {
		s := opened(t)
		var group sync.WaitGroup
		for j := 0; j < 4; j++ {
			group.Add(1)
			go func() {
				defer group.Done()
				for err := error(nil); err != ErrNotOpen; {
					if _, err = s.User(1001).Spawn(); err != nil && err != ErrNotOpen && err != EAGAIN {
						t.Error(err)
						return
					}
				}
			}()
		}
		is(t, s.Close(), nil)
		group.Wait()
	}
}
