package tracehost

import (
	"errors"
	"fmt"
	"os"
	"strings"
	"syscall"
)

const scenarioEnd = "\n]}\n"

// An output is a file whose end is written anew after what stays.
type output struct {
	*os.File
	kept int64
}

// add writes what stays, and an end. After an error the file is as before.
func (o *output) add(added, end, before string) error {
	text := added + end
	var limit syscall.Rlimit
	// SIGXFSZ would end the program
	if syscall.Getrlimit(syscall.RLIMIT_FSIZE, &limit) == nil && uint64(o.kept)+uint64(len(text)) > limit.Cur {
		return &os.PathError{Op: "write", Path: o.Name(), Err: syscall.EFBIG}
	}
	if _, err := o.WriteAt([]byte(text), o.kept); err != nil {
		return first(err, o.restore(before))
	}
	o.kept += int64(len(added))
	return nil
}

func (o *output) restore(end string) error {
	if _, err := o.WriteAt([]byte(end), o.kept); err != nil {
		return err
	}
	return o.Truncate(o.kept + int64(len(end)))
}

// first returns the first of the errors that is one.
func first(errs ...error) error {
	for _, err := range errs {
		if err != nil {
			return err
		}
	}
	return nil
}

// A recording is a scenario that is whole after each step, and the lines of its steps.
type recording struct {
	scenario, lines output
	steps           int
	lost            func(error) // takes the error of a step that can't be written, in place of the call
}

// Record keeps the steps of the session in the file scenario, and the lines of their answers in the file lines, from the first
// step on. The scenario is whole after each step: tracehost scenario --expect lines passes. A line that is refused and a step
// that is answered ENOMEM aren't recorded. If a step can't be written, its call returns that error though it was made, both files
// are as before, and the session has ended.
func (s *Session) Record(scenario, lines string) error {
	return s.recordInto(scenario, lines, 0, nil)
}

func (s *Session) recordInto(scenario, lines string, flags int, lost func(error)) error {
	defer s.locked()()
	if line, err := s.lastLine(false); err != nil {
		return err
	} else if line != "" || s.record != nil {
		return errors.New("tracehost: the session has made steps, or is recorded")
	}
	flags |= os.O_RDWR | os.O_CREATE | os.O_TRUNC
	made := &recording{lost: lost}
	var errs [3]error
	made.scenario.File, errs[0] = os.OpenFile(scenario, flags, 0o666)
	made.lines.File, errs[1] = os.OpenFile(lines, flags, 0o666)
	if errs[0] == nil && errs[1] == nil {
		errs[2] = made.scenario.add(fmt.Sprintf(`{"kill_on_debugger_exit":%d,"steps":[`, number(s.kills)), scenarioEnd, "")
	}
	if err := first(errs[:]...); err != nil {
		made.close()
		return err
	}
	isFree(made.scenario.File) // locked, so that others know that it isn't what a dead process has left
	s.record = made
	return nil
}

func (r *recording) close() error {
	return first(r.scenario.Close(), r.lines.Close())
}

func (s *Session) endRecording() error {
	if s.record == nil {
		return nil
	}
	ended := s.record
	s.record = nil
	return ended.close()
}

// recorded adds the last step to the recording. After an error the session has ended, unless it is a test's.
func (s *Session) recorded() error {
	if s.record == nil {
		return nil
	}
	step, err := s.lastStep()
	if err != nil || step == "" {
		return err
	}
	line, err := s.lastLine(false)
	if err != nil {
		return err
	}
	err = s.record.add(step, line)
	if err == nil {
		return nil
	}
	err = fmt.Errorf("tracehost: step %d was made and can't be recorded: %w", s.record.steps+1, err)
	if s.record.lost != nil {
		s.record.lost(err)
		return s.endRecording()
	}
	s.failure = err
	return err
}

func (r *recording) add(step, line string) error {
	if strings.Contains(line, " error ENOMEM ") {
		return nil
	}
	// the line comes first: a program that is killed between both has one line too many, and no step without a line
	before := r.lines.kept
	if err := r.lines.add(line+"\n", "", ""); err != nil {
		return err
	}
	between := ",\n"
	if r.steps == 0 {
		between = "\n"
	}
	if err := r.scenario.add(between+step, scenarioEnd, scenarioEnd); err != nil {
		r.lines.kept = before
		return first(err, r.lines.restore(""))
	}
	r.steps++
	return nil
}
