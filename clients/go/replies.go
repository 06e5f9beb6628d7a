package tracehost

// #include <tracehost.h>
import "C"

import (
	"fmt"
	"strings"
	"syscall"
)

// A SignalSet has signal n as bit n - 1.
type SignalSet uint32

// An Act is what an LWP does at its turn. A stop that is due and a pending signal come first, in place of the act.
type Act struct{ act, call, argument uint32 }

// A Call is a system call that an LWP enters.
type Call struct{ number, argument uint32 }

// A Reply is what a step is answered: one of the types with its method.
type Reply interface{ reply() }

// as is the reply as one of its types, and its zero value after an error.
func as[T Reply](reply Reply, err error) (T, error) {
	value, _ := reply.(T)
	return value, err
}

func number(set bool) uint32 {
	if set {
		return 1
	}
	return 0
}

// SignalsOf returns the set of these signals.
func SignalsOf(signals ...Signal) (set SignalSet) {
	for _, signal := range signals {
		set |= 1 << (signal - 1)
	}
	return set
}

// Has reports whether the signal is in the set.
func (s SignalSet) Has(signal Signal) bool {
	return s>>(signal-1)&1 == 1
}

// A WaitStatus is the word that wait(2) stores, with the methods of syscall.WaitStatus.
type WaitStatus uint32

const continued = 0x13

func (w WaitStatus) Exited() bool       { return w&0xff == 0 }
func (w WaitStatus) ExitStatus() int    { return int(w >> 8) }
func (w WaitStatus) Stopped() bool      { return w&0xff == 0x7f }
func (w WaitStatus) StopSignal() Signal { return Signal(w >> 8) }
func (w WaitStatus) Continued() bool    { return w == continued }
func (w WaitStatus) Signaled() bool     { return !w.Exited() && !w.Stopped() && !w.Continued() }
func (w WaitStatus) Signal() Signal     { return Signal(w & 0x7f) }

func (w WaitStatus) String() string {
	switch {
	case w.Exited():
		return fmt.Sprint("exited ", w.ExitStatus())
	case w.Stopped():
		return fmt.Sprint("stopped ", w.StopSignal())
	case w.Continued():
		return "continued"
	}
	return fmt.Sprint("signaled ", w.Signal())
}

// A flagBit is the library's bit of a flag, and the flag.
type flagBit struct {
	bit  uint32
	flag StopFlag
}

// stopFlags are the flags of the library's bits.
func stopFlags(bits C.uint32_t) (flags StopFlag) {
	for _, one := range flagBits {
		if uint32(bits)&one.bit != 0 {
			flags |= one.flag
		}
	}
	return flags
}

func bitsOf(flags StopFlag) (bits C.uint32_t, err error) {
	for _, one := range flagBits {
		if flags&one.flag != 0 {
			bits |= C.uint32_t(one.bit)
		}
	}
	if stopFlags(bits) != flags {
		return 0, ErrInvalid
	}
	return bits, nil
}

// named is a number, or a bit, and its name.
type named struct {
	number uint32
	name   string
}

func nameOf(table []named, kind string, number uint32) string {
	for _, one := range table {
		if one.number == number {
			return one.name
		}
	}
	return fmt.Sprintf("%s(%d)", kind, number)
}

func namesOf(table []named, kind string, bits uint32) string {
	var names []string
	for _, one := range table {
		if bits&one.number != 0 {
			names = append(names, one.name)
			bits &^= one.number
		}
	}
	if bits != 0 {
		names = append(names, fmt.Sprintf("%s(%#x)", kind, bits))
	}
	return strings.Join(names, "|")
}

type errno struct {
	host  syscall.Errno
	words string
}

func (e Errno) Error() string {
	if row, isOurs := errnos[e]; isOurs {
		return row.words
	}
	return fmt.Sprintf("Errno(%d)", uint32(e))
}

// Is reports whether the target is this errno, by whatever number this system has for it, or what that is to package os.
func (e Errno) Is(target error) bool {
	host := errnos[e].host
	return host != 0 && (target == error(host) || host.Is(target))
}
