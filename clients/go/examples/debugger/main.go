// A small debugger: attaches to a shell, follows its forks, prints system calls and signals, and detaches when a child of the shell
// has ended. The examples of the other clients print the same.
package main

import (
	"errors"
	"fmt"
	"log"

	"tracehost"
)

const sysRead, sysWrite = 3, 4

var callNames = map[uint32]string{1: "exit", 2: "fork", 3: "read", 4: "write", 59: "execve", 66: "vfork"}

type debugger struct {
	tracehost.Process
	user    tracehost.User
	tracees map[uint32]bool
	leaving bool
}

// must ends the program if a call has failed.
func must(err error) {
	if err != nil {
		log.Fatal(err)
	}
}

// follow asks a process that has stopped for its events, and lets it go on.
func (d *debugger) follow(pid uint32) {
	d.tracees[pid] = true
	events := tracehost.PTRACE_FORK | tracehost.PTRACE_VFORK | tracehost.PTRACE_EXEC | tracehost.PTRACE_SYSCALL
	must(d.PtraceSetEventMask(pid, events))
	must(d.PtraceContinue(pid, 0))
}

func (d *debugger) attach(pid uint32) {
	must(d.PtraceAttach(pid))
	_, _, err := d.Wait4(int64(pid), 0)
	must(err)
	fmt.Printf("%d: attached\n", pid)
	d.follow(pid)
}

func (d *debugger) stopped(pid uint32, signal tracehost.Signal) {
	info, err := d.PtraceLwpInfo(pid)
	must(err)
	has := func(flag tracehost.StopFlag) bool { return info.Flags&flag != 0 }
	passed := tracehost.Signal(0)
	switch call := callNames[info.Code]; {
	case has(tracehost.PL_FLAG_CHILD):
		fmt.Printf("%d: a child, followed\n", pid)
		d.follow(pid)
		return
	case has(tracehost.PL_FLAG_SCE):
		fmt.Printf("%d: %s\n", pid, call)
	case has(tracehost.PL_FLAG_FORKED):
		fmt.Printf("%d: %s = %d\n", pid, call, info.Child)
	case has(tracehost.PL_FLAG_EXEC):
		fmt.Printf("%d: runs another program\n", pid)
	case has(tracehost.PL_FLAG_SCX):
		fmt.Printf("%d: %s done\n", pid, call)
	case signal == tracehost.SIGSTOP && d.leaving:
		must(d.PtraceDetach(pid, 0))
		delete(d.tracees, pid)
		fmt.Printf("%d: detached\n", pid)
		return
	default:
		fmt.Printf("%d: %s, passed on\n", pid, signal)
		passed = signal
	}
	must(d.PtraceContinue(pid, passed))
}

// collect takes all that wait4(2) has to report. The first end is what the debugger has waited for: it stops the others, to
// detach from them.
func (d *debugger) collect() {
	for len(d.tracees) > 0 {
		pid, status, err := d.Wait4(tracehost.Any, 0)
		must(err)
		switch {
		case pid == 0:
			return
		case status.Stopped():
			d.stopped(pid, status.StopSignal())
			continue
		case status.Exited():
			fmt.Printf("%d: exited with %d\n", pid, status.ExitStatus())
		case status.Signaled():
			fmt.Printf("%d: ended by %s\n", pid, status.Signal())
		}
		delete(d.tracees, pid)
		d.leaving = true
		for tracee := range d.tracees {
			must(d.Kill(int64(tracee), tracehost.SIGSTOP))
		}
	}
}

// run lets an LWP do these acts, and the debugger take what they bring. An act that a stop came before is done after it.
func (d *debugger) run(lwp uint32, acts ...tracehost.Act) {
	for _, act := range acts {
		for again := true; again; {
			reply, err := d.user.Turn(lwp, act)
			must(err)
			d.collect()
			stop, isStopped := reply.(tracehost.Stopped)
			again = isStopped && stop.Flags&(tracehost.PL_FLAG_SCE|tracehost.PL_FLAG_SCX) == 0
		}
	}
}

func main() {
	session, err := tracehost.Open()
	must(err)
	defer session.Close()
	user := session.User(1001)
	self, err := user.Spawn()
	must(err)
	shell, err := user.Spawn()
	must(err)
	d := debugger{user.Process(self.Pid), user, map[uint32]bool{}, false}
	d.attach(shell.Pid)

	// the shell reads a command, and makes a process for it, whose LWP has the next number
	read, write := tracehost.Enter(tracehost.Other(sysRead)), tracehost.Enter(tracehost.Other(sysWrite))
	fork, exec, exit := tracehost.Enter(tracehost.Fork), tracehost.Enter(tracehost.Exec), tracehost.Enter(tracehost.Exit(3))
	leave, child := tracehost.LeaveCall, shell.Lwp+1
	d.run(shell.Lwp, read, leave, fork, leave)
	d.run(child, exec, leave, write, leave)
	d.run(child, tracehost.Raise(tracehost.SIGWINCH), tracehost.Compute, exit, leave)
	d.run(shell.Lwp, tracehost.Compute, read, leave)

	pid, _, err := user.Process(shell.Pid).Wait4(tracehost.Any, 0)
	must(err)
	fmt.Printf("%d: has collected %d\n", shell.Pid, pid)
	if _, _, err := d.Wait4(tracehost.Any, 0); errors.Is(err, tracehost.ECHILD) {
		fmt.Println("nothing left to trace")
	}
}
