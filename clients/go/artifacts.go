package tracehost

import (
	"bytes"
	"context"
	"errors"
	"fmt"
	"hash/fnv"
	"log"
	"os"
	"os/exec"
	"path/filepath"
	"regexp"
	"strings"
	"sync"
	"syscall"
	"time"
)

// TB is a test: *testing.T, *testing.B or *testing.F.
type TB interface {
	Cleanup(func())
	Failed() bool
	Fatal(...any)
	Logf(string, ...any)
	Name() string
}

// OpenTest opens a session of a test, which closes it at its end. If the test fails, it leaves PROGRAM.TEST-DIGEST.json, a
// scenario, .out, its lines, and .html, a page, in the folder $TRACEHOST_ARTIFACTS, else in a new temporary one. Its log tells
// them, and the command that goes on. If $TRACEHOST_TRACES names a folder, each test leaves its scenario there.
func OpenTest(t TB) *Session {
	s, err := Open()
	if err != nil {
		t.Fatal(err)
	}
	t.Cleanup(func() { s.Close() })
	s.RecordTest(t)
	return s
}

// RecordTest makes a session that was opened otherwise one of a test. It comes before the first step.
func (s *Session) RecordTest(t TB) {
	lost := func(err error) { say("%s: not recorded: %v", t.Name(), err) }
	files, err := newArtifacts(t.Name())
	if err == nil {
		err = files.whileLocked(func() error {
			for _, path := range files.earlier() {
				if strings.Contains(filepath.Base(path), ".json.") && isLeft(path) {
					say("left by a test that ended its process: %s", path)
				}
			}
			return s.recordInto(files.now("json"), files.now("out"), syscall.O_NOFOLLOW, lost)
		})
	}
	if record := s.record; err == nil {
		t.Cleanup(func() { files.end(t, record) })
	} else {
		lost(err)
		files.leave(false)
	}
}

var say = log.New(os.Stderr, "tracehost: ", 0).Printf // a test's log is printed only if it fails

// isFree locks a file while it is open; false if it is locked otherwise.
func isFree(file *os.File) bool {
	return syscall.Flock(int(file.Fd()), syscall.LOCK_EX|syscall.LOCK_NB) == nil
}

// artifacts are the files of a test. While it runs, the process's number ends their names.
type artifacts struct {
	folder, stem, name string
	isOwn              bool // the folder
}

var (
	namesInUse, foundIn sync.Map
	notPlain            = regexp.MustCompile(`[^A-Za-z0-9_.-]`)
	ofATest             = regexp.MustCompile(`^(.+-[0-9a-f]{12})(-\d+)?\.(json|out|html)(\.\d+)?$`)
	began               = time.Now().Add(-20 * time.Millisecond) // a file's time may be so much behind
)

// stemOf is PROGRAM.TEST-DIGEST. A package's tests run in its folder, from a program that go test has made somewhere.
func stemOf(test string) string {
	program := filepath.Base(os.Args[0])
	path, _ := filepath.Abs(program)
	digest := fnv.New64a()
	fmt.Fprintf(digest, "%s\x00%s\x00", path, test)
	return fmt.Sprintf("%s.%s-%012x", plain(program, 30), plain(test, 50), digest.Sum64()&(1<<48-1))
}

// plain is at most so many characters of a name, with plain ones only.
func plain(name string, most int) string {
	return notPlain.ReplaceAllString(fmt.Sprintf("%.*s", most, name), "_")
}

func newArtifacts(test string) (a *artifacts, err error) {
	stem := stemOf(test)
	a = &artifacts{folder: os.Getenv("TRACEHOST_ARTIFACTS"), stem: stem, name: stem}
	_, isUsed := namesInUse.LoadOrStore(a.name, true)
	for nth := 2; isUsed; nth++ {
		a.name = fmt.Sprintf("%s-%d", stem, nth)
		_, isUsed = namesInUse.LoadOrStore(a.name, true)
	}
	if a.isOwn = a.folder == ""; a.isOwn {
		a.folder, err = os.MkdirTemp("", "tracehost-"+plain(test, 50)+"-")
	} else if a.folder, err = filepath.Abs(a.folder); err == nil {
		err = os.MkdirAll(a.folder, 0o777)
	}
	return a, err
}

// whileLocked runs a function while no other process begins or ends a record in the folder, or looks for dead ones.
func (a *artifacts) whileLocked(run func() error) error {
	folder, err := os.Open(a.folder)
	if err != nil {
		return err
	}
	defer folder.Close()
	for try := 0; !isFree(folder) && try < 1000; try++ {
		time.Sleep(10 * time.Millisecond)
	}
	return run()
}

// earlier is what runs before this process have left of the test, as the process's first test in the folder finds it.
func (a *artifacts) earlier() []string {
	found, isRead := foundIn.Load(a.folder)
	if !isRead {
		paths := map[string][]string{}
		entries, _ := os.ReadDir(a.folder)
		for _, entry := range entries {
			if parts := ofATest.FindStringSubmatch(entry.Name()); parts != nil {
				paths[parts[1]] = append(paths[parts[1]], filepath.Join(a.folder, entry.Name()))
			}
		}
		found, _ = foundIn.LoadOrStore(a.folder, paths)
	}
	return found.(map[string][]string)[a.stem]
}

// isLeft tells whether a file is of a run before this process, and nobody has locked the scenario that it belongs to.
func isLeft(path string) bool {
	var status syscall.Stat_t
	file, err := os.OpenFile(strings.Replace(path, ".out.", ".json.", 1), syscall.O_NOFOLLOW|syscall.O_NONBLOCK, 0)
	defer file.Close()
	return syscall.Lstat(path, &status) == nil && time.Unix(status.Ctim.Unix()).Before(began) && (err != nil || isFree(file))
}

func (a *artifacts) now(kind string) string {
	return fmt.Sprintf("%s.%d", a.last(kind), os.Getpid())
}

func (a *artifacts) last(kind string) string {
	return filepath.Join(a.folder, a.name+"."+kind)
}

// end keeps the files of a test that has failed, else removes them.
func (a *artifacts) end(t TB, record *recording) {
	a.leaveTrace(os.Getenv("TRACEHOST_TRACES"))
	if t.Failed() {
		defer t.Logf("%s", a.told(t, record.steps))
	}
	if err := a.whileLocked(func() error { return a.leave(t.Failed()) }); err != nil {
		say("the record stays %s: %v", a.now("json"), err)
	}
}

// leave gives the files their last names, or removes them; what earlier runs have left of the test goes.
func (a *artifacts) leave(failed bool) (err error) {
	for _, kind := range []string{"html", "out", "json"} {
		if !failed {
			os.Remove(a.now(kind))
		} else if lost := os.Rename(a.now(kind), a.last(kind)); kind != "html" { // there may be no page
			err = first(err, lost)
		}
	}
	for _, path := range a.earlier() {
		if isLeft(path) {
			os.Remove(path)
		}
	}
	if !failed {
		namesInUse.Delete(a.name)
	}
	if a.isOwn {
		os.Remove(a.folder) // unless a file is in it
	}
	return err
}

// leaveTrace copies the scenario to a new file of the folder, if one is named.
func (a *artifacts) leaveTrace(folder string) {
	if folder == "" {
		return
	}
	path := fmt.Sprintf("%s/%s.%d-%d.json", folder, a.stem, os.Getpid(), time.Now().UnixNano())
	scenario, err := os.ReadFile(a.now("json"))
	if err = first(err, os.MkdirAll(folder, 0o777)); err == nil {
		err = os.WriteFile(path, scenario, 0o666)
	}
	if err != nil {
		os.Remove(path)
		say("no trace is left in %s: %v", folder, err)
	}
}

// told is what a failed test logs: its files, and the session's story, which ends with the command that goes on.
func (a *artifacts) told(t TB, steps int) string {
	page, at, name := a.last("html"), fmt.Sprintf("--at=%d", steps), t.Name()
	trace, err := printed("TRACEHOST", "tracehost", nil, "--json=trace+rows", "--", a.now("json"))
	if err == nil {
		_, err = printed("TRACEHOST_VIEW", "tracehost-view", trace, "--output="+a.now("html"), "--title="+name, "--failed="+name,
			"--message=the test has failed", at, "-")
	}
	if err != nil {
		page = fmt.Sprintf("none: %v", err)
	}
	story, err := printed("TRACEHOST_DEBUG", "tracehost-debug", nil, "--story", "--called="+a.last("json"), at, "--", a.now("json"))
	if err != nil || steps == 0 {
		story = []byte("tracehost: to go on from here: tracehost-debug " + a.last("json"))
	}
	return fmt.Sprintf("\ntracehost: scenario: %s\ntracehost: lines:    %s\ntracehost: page:     %s\n%s",
		a.last("json"), a.last("out"), page, bytes.TrimSpace(story))
}

// printed returns what a command prints, whose name the environment may have.
func printed(variable, name string, input []byte, words ...string) ([]byte, error) {
	if other, isSet := os.LookupEnv(variable); isSet {
		name = other
	}
	limited, cancel := context.WithTimeout(context.Background(), 5*time.Minute)
	defer cancel()
	command := exec.CommandContext(limited, name, words...)
	command.Stdin = bytes.NewReader(input)
	output, err := command.Output()
	if failed, _ := err.(*exec.ExitError); failed != nil && len(failed.Stderr) > 0 {
		return nil, errors.New(strings.TrimSpace(string(failed.Stderr)))
	}
	return output, err
}
