package tracehost

import (
	"errors"
	"io/fs"
	"os"
	"reflect"
	"regexp"
	"strings"
	"syscall"
	"testing"
)

func TestErrnosAreErrorValues(t *testing.T) {
	user := opened(t).User(1001)
	process := user.Process(must(user.Spawn())(t).Pid)
	err := process.PtraceAttach(99)
	is(t, err, ESRCH)
	is(t, err, syscall.ESRCH)
	if errors.Is(err, EPERM) || errors.Is(err, syscall.EPERM) || errors.Is(err, os.ErrPermission) {
		t.Error("ESRCH is another errno")
	}
	same(t, err.Error(), "No such process")
	is(t, EPERM, fs.ErrPermission)
	is(t, EAGAIN, syscall.EAGAIN) // 35 here, and 11 there
	_, _, err = process.Wait4(Any, 0)
	is(t, err, syscall.ECHILD)
	same(t, Errno(77).Error(), "Errno(77)")
	if errors.Is(Errno(77), syscall.Errno(77)) {
		t.Error("an errno that the model doesn't have")
	}
}

func TestHeldIsAnError(t *testing.T) {
	user := opened(t).User(1001)
	_, target := traced(t, user)
	_, err := user.Turn(target.Lwp, Compute)
	is(t, err, ErrHeld)
	_, err = user.Process(target.Pid).List()
	is(t, err, ErrHeld)
}

func TestRequests(t *testing.T) {
	user := opened(t).User(1001)
	debugger, target := traced(t, user)
	is(t, debugger.PtraceSetEventMask(target.Pid, PTRACE_SYSCALL|PTRACE_EXEC), nil)
	is(t, debugger.PtraceFollowFork(target.Pid, true), nil)
	same(t, must(debugger.PtraceGetEventMask(target.Pid))(t), PTRACE_SYSCALL|PTRACE_EXEC|PTRACE_FORK)
	same(t, must(debugger.PtraceGetNumLwps(target.Pid))(t), 1)
	same(t, listed("", must(debugger.PtraceGetLwpList(target.Pid, 8))(t)), " 100001")
	is(t, debugger.PtraceContinue(target.Pid, 0), nil)
	stop := must(user.Turn(target.Lwp, Enter(Other(4))))(t)
	same(t, stop, Reply(Stopped{target.Lwp, SIGTRAP, PL_FLAG_SCE}))
	debugger.Wait4(int64(target.Pid), WNOHANG)
	info := LwpInfo{Lwp: target.Lwp, Reports: true, Flags: PL_FLAG_SCE, Code: 4}
	same(t, must(debugger.PtraceLwpInfo(target.Pid))(t), info)
	is(t, debugger.PtraceKill(target.Pid), nil)
	pid, status, err := debugger.Wait4(Any, 0)
	same(t, pid, target.Pid)
	same(t, status.String(), "signaled SIGKILL")
	is(t, err, nil)
}

func TestNothingToCollect(t *testing.T) {
	user := opened(t).User(1001)
	debugger, target := traced(t, user)
	pid, status, err := debugger.Wait4(int64(target.Pid), 0)
	if pid != 0 || status != 0 || err != nil {
		t.Error(pid, status, err)
	}
}

func TestAHandlerDecides(t *testing.T) {
	user := opened(t).User(1001)
	debugger, target := traced(t, user)
	is(t, debugger.PtraceContinue(target.Pid, 0), nil)
	is(t, debugger.Install(Rule{Signal: SIGUSR1, Decision: Continue, Pass: SIGUSR2}, Rule{Flags: PL_FLAG_EXEC, Decision: Kill}), nil)
	is(t, user.Process(target.Pid).Sigaction(SIGUSR2, SIG_CATCH), nil)
	is(t, debugger.Kill(int64(target.Pid), SIGUSR1), nil)
	must(user.Turn(target.Lwp, Compute))(t)
	status := WaitStatus(SIGUSR1<<8 | 0x7f)
	wanted := Handled{Pid: target.Pid, Status: status, Lwp: target.Lwp, Signal: SIGUSR1, Decision: Continue, Pass: SIGUSR2}
	same(t, must(debugger.Handle())(t), Reply(wanted))
	same(t, must(user.Turn(target.Lwp, Compute))(t), Reply(Ok{})) // no handler of its own runs: docs/FORMAT.md, section 3
}

func TestAFunctionDecides(t *testing.T) {
	user := opened(t).User(1001)
	debugger, target := traced(t, user)
	is(t, debugger.PtraceContinue(target.Pid, 0), nil)
	for _, decision := range []Decision{Leave, Decline, Continue, Detach} {
		is(t, debugger.Kill(int64(target.Pid), SIGUSR1), nil)
		must(user.Turn(target.Lwp, Compute))(t)
		reply := must(debugger.HandleWith(func(stop Handled) (Decision, Signal) {
			same(t, stop.Signal, SIGUSR1)
			return decision, 0
		}))(t).(Handled)
		same(t, reply.Decision, decision)
		same(t, reply.Handler, -1)
		view := must(user.View())(t)
		isStopped := decision == Leave || decision == Decline
		same(t, view.Processes[1].State == ProcessStateTraceStop, isStopped)
		same(t, view.Processes[1].Tracer == 0, decision == Detach)
		if isStopped {
			is(t, debugger.PtraceContinue(target.Pid, 0), nil)
		}
	}
}

func TestCopies(t *testing.T) {
	s := opened(t)
	user := s.User(1001)
	process := user.Process(must(user.Spawn())(t).Pid)
	copied := must(s.Copy())(t)
	must(copied.User(1001).Spawn())(t)
	same(t, listed("", must(process.List())(t)), " 1000")
	same(t, listed("", must(copied.User(1001).Process(1000).List())(t)), " 1000 1001")

	is(t, copied.CopyOver(s), nil)
	same(t, listed("", must(process.List())(t)), " 1000 1001")
	is(t, s.CopyOver(s), fs.ErrClosed)

	to := opened(t)
	must(to.User(1002).Spawn())(t)
	is(t, user.CopyTo(to), nil)
	same(t, must(to.User(1001).Spawn())(t).Pid, 1002)
	same(t, must(to.User(1002).Spawn())(t).Pid, 2001)
	is(t, user.CopyTo(s), fs.ErrClosed)
	detaching, err := OpenDetaching()
	is(t, err, nil)
	is(t, user.CopyTo(detaching), fs.ErrInvalid)
	is(t, s.User(5).CopyTo(to), ErrInvalid)
}

func TestAViewHasMoreRowsThanTheFirstRoom(t *testing.T) {
	user := opened(t).User(1003)
	for i := 0; i < 30; i++ {
		must(user.Spawn())(t)
	}
	view := must(user.View())(t)
	same(t, len(view.Processes), 30)
	same(t, len(view.Lwps), 30)
	same(t, view.Lwps[29].Pid, view.Processes[29].Pid)
	must(user.Turn(view.Lwps[3].Lwp, Enter(Fork)))(t)
	child := must(user.Turn(view.Lwps[3].Lwp, LeaveCall))(t).(New)
	must(user.Turn(child.Lwp, Enter(Exit(3))))(t)
	row := must(user.View())(t).Lwps[30]
	same(t, row.Mode, LwpModeInCall)
	same(t, row.Call, Exit(3))
	same(t, must(user.Turn(child.Lwp, LeaveCall))(t), Reply(Ended{3 << 8}))
	process := must(user.View())(t).Processes[30]
	same(t, process, ProcessRow{Pid: child.Pid, Parent: view.Processes[3].Pid, State: ProcessStateZombie, Status: 3 << 8})
	rows := must(user.Rows())(t)
	if !strings.HasPrefix(rows, "{") || strings.Count(rows, `"pid"`) < 30 {
		t.Error(rows)
	}
}

func TestAStateTellsDispositions(t *testing.T) {
	user := opened(t).User(1001)
	process := user.Process(must(user.Spawn())(t).Pid)
	before, view := must(user.State())(t), must(user.View())(t)
	is(t, process.Sigaction(SIGTERM, SIG_IGN), nil)
	if reflect.DeepEqual(before, must(user.State())(t)) || !reflect.DeepEqual(view, must(user.View())(t)) {
		t.Error("the state has to be another, and the view the same")
	}
}

func TestLines(t *testing.T) {
	s := opened(t)
	same(t, must(s.LastLine())(t), "")
	same(t, must(s.LastStep())(t), "")
	same(t, must(s.Line(`{"user":1001,"op":"spawn"}`))(t), "1001 1 new 1000 100000")
	same(t, must(s.JSONLine(`{"user":1001,"op":"spawn"}`))(t), `{"user":1001,"step":2,"reply":"new","pid":1001,"lwp":100001}`)
	same(t, must(s.LastStep())(t), `{"user":1001,"op":"spawn"}`)
	same(t, must(s.Line(""))(t), "refused BadJson")
	same(t, must(s.LastStep())(t), "")
	same(t, must(s.LastJSONLine())(t), `{"refused":"BadJson"}`)
	why := must(Explain(`{"user":1001,"op":"spawm"}`, 7))(t)
	if !strings.Contains(why, "7") || !strings.Contains(why, "spawn") {
		t.Error(why)
	}
	same(t, must(Explain(`{"user":1001,"op":"spawn"}`, 7))(t), "")
}

// Numbers that the generated file has are those of the library's header.
func TestNumbersAreTheHeaders(t *testing.T) {
	header, err := os.ReadFile("../../include/tracehost.h")
	if err != nil {
		t.Skip(err)
	}
	has := func(name string, number uint32) {
		found := regexp.MustCompile(`\bTRACEHOST_` + name + ` = (\d+)`).FindSubmatch(header)
		if found == nil || string(found[1]) != strings.TrimSpace(listed("", []uint32{number})) {
			t.Errorf("%s: %s", name, found)
		}
	}
	for _, one := range requestNames {
		has(one.name, one.number)
	}
	for _, one := range append(append([]named{}, eventMaskNames...), waitOptionNames...) {
		has(one.name, one.number)
	}
	for i, one := range flagBits {
		has(stopFlagNames[i].name, one.bit)
	}
	for name, number := range map[string]uint32{"MAX_RULES": MaxRules, "LAST_USER": LastUser, "LAST_PROCESS": LastProcess,
		"DETACH": uint32(Detach), "CATCH": uint32(SIG_CATCH), "THR_EXIT": ThrExit.number, "LEAVE_CALL": LeaveCall.act} {
		has(name, number)
	}
	same(t, SIGUSR1, 30)
	same(t, SIGUSR1.String(), "SIGUSR1")
	same(t, Signal(40).String(), "Signal(40)")
	same(t, (PL_FLAG_SCE | 0x4000).String(), "PL_FLAG_SCE|StopFlag(0x4000)")
}
