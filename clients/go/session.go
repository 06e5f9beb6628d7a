// Package tracehost is FreeBSD's ptrace(2), wait(2), sigaction(2) and kill(2), answered by a proved model in the process. A
// debugger's tests need no kernel.
//
// A [Session] is a host that the users 1001 to 1064 share. A [User] makes processes and gives LWPs their turns, as a kernel's
// scheduler does. A [Process] makes system calls; none of them blocks. An error is an [Errno], [ErrHeld] or a [Code]; errors.Is
// also knows syscall's errnos. Goroutines may share a session: their steps come in the order in which they run.
package tracehost

// #include <tracehost.h>
import "C"

import (
	"errors"
	"fmt"
	"sync"
)

// ErrHeld is the error of a call whose caller, or whose LWP at its turn, doesn't run. Nothing changes, and it is counted as an
// answer.
var ErrHeld = errors.New("held: the caller or the LWP doesn't run")

// A Session is a host of its own.
type Session struct {
	mutex   sync.Mutex
	number  uint64 // two sessions are locked in this order
	kills   bool
	handle  *C.tracehost // apart, as the next: C must not be given a pointer into what has Go's pointers
	raw     *C.tracehost_reply
	record  *recording
	failure error // of a recording, which has ended the session
}

// Open opens a session. The end of a debugger kills the processes that it traces.
func Open() (*Session, error) {
	return open(true)
}

// OpenDetaching opens a session as with the sysctl kern.kill_on_debugger_exit=0: the end of a debugger detaches the processes
// that it traces.
func OpenDetaching() (*Session, error) {
	return open(false)
}

func open(kills bool) (*Session, error) {
	if library := C.GoString(C.tracehost_version()); library != Version {
		return nil, fmt.Errorf("tracehost: the library is of version %s, and this package of %s", library, Version)
	}
	s := newSession(kills)
	if err := check(C.tracehost_open(C.bool(kills), s.handle)); err != nil {
		return nil, err
	}
	return s, nil
}

// Close ends the session, and frees it. Later calls return [ErrNotOpen].
func (s *Session) Close() error {
	defer s.locked()()
	return first(check(C.tracehost_close(s.handle)), s.endRecording())
}

// Copy returns a session that goes on from the present state. It isn't recorded.
func (s *Session) Copy() (*Session, error) {
	defer s.locked()()
	to := newSession(s.kills)
	if err := check(C.tracehost_copy(s.handle, to.handle)); err != nil {
		return nil, err
	}
	return to, nil
}

// CopyOver copies the session over another, whose session and recording end; this session keeps the memory of two from then on.
// After an error the other session is as it was.
func (s *Session) CopyOver(to *Session) error {
	return s.copied(to, func() C.uint32_t { return C.tracehost_copy_over(s.handle, to.handle) }, true)
}

// copied makes a call on two sessions. The second one's recording ends, and if all is copied it gets the setting.
func (s *Session) copied(to *Session, call func() C.uint32_t, isWhole bool) error {
	if s == to {
		return ErrNotOpen // as the library says it
	}
	lower, upper := s, to
	if lower.number > upper.number {
		lower, upper = to, s
	}
	defer lower.locked()()
	defer upper.locked()()
	if err := check(call()); err != nil {
		return err
	}
	if isWhole {
		to.kills = s.kills
	}
	return to.endRecording()
}

// User returns a user: 1001 to 1064, else each of its calls returns [ErrInvalid].
func (s *Session) User(uid uint32) User {
	return User{s, uid}
}

// A User is one of a session.
type User struct {
	session *Session
	uid     uint32
}

// Spawn makes a process with one LWP. Its parent is process 1.
func (u User) Spawn() (New, error) {
	return as[New](u.session.step(u.uid, 0, func(c call) C.uint32_t { return C.tracehost_spawn(c.h, c.user, c.reply) }))
}

// Process returns who makes calls: the process of this number.
func (u User) Process(pid uint32) Process {
	return Process{u, pid}
}

// Turn gives an LWP its turn. The reply is [Ok], [New], [Stopped], [Caught] or [Ended].
func (u User) Turn(lwp uint32, act Act) (Reply, error) {
	return u.session.step(u.uid, 0, func(c call) C.uint32_t {
		number, call, argument := C.uint32_t(act.act), C.uint32_t(act.call), C.uint32_t(act.argument)
		return C.tracehost_turn(c.h, c.user, C.uint32_t(lwp), number, call, argument, c.reply)
	})
}

// CopyTo copies what the user has, the processes and the number of answers, over what the user has in another session. All other
// users of that session keep theirs; its recording ends.
func (u User) CopyTo(to *Session) error {
	return u.session.copied(to, func() C.uint32_t {
		return C.tracehost_copy_user(u.session.handle, to.handle, C.uint32_t(u.uid))
	}, false)
}

// A View is what a user sees: the own processes by rising number, and LWPs in order of birth.
type View struct {
	Processes []ProcessRow
	Lwps      []LwpRow
}

// View returns the user's rows. It makes no step.
func (u User) View() (View, error) {
	defer u.session.locked()()
	processes, lwps := make([]C.tracehost_process, 8), make([]C.tracehost_lwp, 8)
	for {
		var processCount, lwpCount C.size_t
		err := check(C.tracehost_view(u.session.handle, C.uint32_t(u.uid), &processes[0], C.size_t(len(processes)),
			&lwps[0], C.size_t(len(lwps)), &processCount, &lwpCount))
		if err != nil {
			return View{}, err
		}
		if int(processCount) <= len(processes) && int(lwpCount) <= len(lwps) {
			return View{mapped(processes[:processCount], processRow), mapped(lwps[:lwpCount], lwpRow)}, nil
		}
		processes, lwps = make([]C.tracehost_process, processCount+1), make([]C.tracehost_lwp, lwpCount+1)
	}
}

func mapped[Raw, Row any](raws []Raw, read func(*Raw) Row) (rows []Row) {
	for i := range raws {
		rows = append(rows, read(&raws[i]))
	}
	return rows
}

// Rows returns the user's rows as a JSON object, as the member rows of a trace has them. It makes no step.
func (u User) Rows() (string, error) {
	defer u.session.locked()()
	return text(func(out *C.uint8_t, size C.size_t, length *C.size_t) C.uint32_t {
		return C.tracehost_rows(u.session.handle, C.uint32_t(u.uid), out, size, length)
	})
}

// State returns all that the user sees as numbers. Sessions with the same numbers answer the user's next steps alike. It makes
// no step.
func (u User) State() ([]uint32, error) {
	defer u.session.locked()()
	return stored(127, func(out *uint32, size C.size_t, length *C.size_t) C.uint32_t {
		return C.tracehost_state(u.session.handle, C.uint32_t(u.uid), (*C.uint32_t)(out), size, length)
	})
}
