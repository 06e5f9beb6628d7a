package tracehost

// #include <tracehost.h>
import "C"

// A Process makes system calls.
type Process struct {
	user User
	pid  uint32
}

// Any is a process for Wait4, any child and any process that the caller traces, and for Kill, all of the user's but the caller.
const Any = -1

func (p Process) step(make func(c call) C.uint32_t) (Reply, error) {
	return p.user.session.step(p.user.uid, p.pid, make)
}

// List returns the user's processes, zombies too, by rising number.
func (p Process) List() ([]uint32, error) {
	reply, err := as[Pids](p.step(func(c call) C.uint32_t { return C.tracehost_list(c.h, c.user, c.caller, c.reply) }))
	return reply.Pids, err
}

// Sigaction is sigaction(2): sets what the process does with a signal.
func (p Process) Sigaction(signal Signal, disposition Disposition) error {
	_, err := p.step(func(c call) C.uint32_t {
		return C.tracehost_sigaction(c.h, c.user, c.caller, C.uint32_t(signal), C.uint32_t(disposition), c.reply)
	})
	return err
}

// Kill is kill(2): posts a signal to a process, or to [Any]. Signal 0 only looks for the process.
func (p Process) Kill(which int64, signal Signal) error {
	_, err := p.step(func(c call) C.uint32_t {
		return C.tracehost_kill(c.h, c.user, c.caller, C.int64_t(which), C.uint32_t(signal), c.reply)
	})
	return err
}

// Wait4 is wait4(2) of a process, or of [Any], as with WNOHANG: the process is 0 if there is nothing to collect.
func (p Process) Wait4(which int64, options WaitOption) (uint32, WaitStatus, error) {
	reply, err := p.step(func(c call) C.uint32_t {
		return C.tracehost_wait4(c.h, c.user, c.caller, C.int64_t(which), C.uint32_t(options), c.reply)
	})
	status, _ := reply.(Status)
	return status.Pid, status.Status, err
}

// Ptrace is ptrace(2), with any numbers; the methods that begin with Ptrace make one request each. A target up to
// [LastProcess] is a process, a greater one an LWP.
func (p Process) Ptrace(request Request, target, data uint32) (Reply, error) {
	return p.step(func(c call) C.uint32_t {
		return C.tracehost_ptrace(c.h, c.user, c.caller, C.uint32_t(request), C.uint32_t(target), C.uint32_t(data), c.reply)
	})
}

// A Rule of a stop handler. The first of its rules that fits a stop decides it.
type Rule struct {
	Flags    StopFlag // fits a stop that has all of these
	Signal   Signal   // and this signal; 0 is any
	Decision Decision
	Pass     Signal // for Continue and Detach: the signal that is passed on, or 0
}

// Install adds a stop handler with these rules, at most [MaxRules], after the process's others.
func (p Process) Install(rules ...Rule) error {
	made := make([]C.tracehost_rule, len(rules), len(rules)+1) // a pointer to the first is never null
	for i, rule := range rules {
		bits, err := bitsOf(rule.Flags)
		if err != nil {
			return err
		}
		made[i].flags, made[i].signal = bits, C.uint32_t(rule.Signal)
		made[i].decision, made[i].pass = C.uint32_t(rule.Decision), C.uint32_t(rule.Pass)
	}
	_, err := p.step(func(c call) C.uint32_t {
		return C.tracehost_install(c.h, c.user, c.caller, &made[:1][0], C.size_t(len(rules)), c.reply)
	})
	return err
}

// Handle waits for any child, and gives a trace stop to the process's handlers. The reply is [Handled], [Status] or [Nothing].
func (p Process) Handle() (Reply, error) {
	return p.step(func(c call) C.uint32_t { return C.tracehost_handle(c.h, c.user, c.caller, c.reply) })
}

// HandleWith is Handle; if the process's rules leave or decline the stop, the function decides. Then its request is made, which
// is a step of its own, and its error is returned. The reply has the function's decision, and no handler.
func (p Process) HandleWith(decide func(Handled) (Decision, Signal)) (Reply, error) {
	reply, err := p.Handle()
	stop, isHandled := reply.(Handled)
	if !isHandled || (stop.Decision != Leave && stop.Decision != Decline) {
		return reply, err
	}
	stop.Decision, stop.Pass = decide(stop)
	stop.Handler = -1
	switch stop.Decision {
	case Continue:
		err = p.PtraceContinue(stop.Pid, stop.Pass)
	case Detach:
		err = p.PtraceDetach(stop.Pid, stop.Pass)
	case Kill:
		err = p.PtraceKill(stop.Pid)
	}
	return stop, err
}
