package tracehost

import (
	"os"
	"path/filepath"
	"strconv"
	"strings"
	"syscall"
	"testing"
	"time"
)

func content(t *testing.T, path string) string {
	t.Helper()
	return string(must(os.ReadFile(path))(t))
}

func TestARecordingIsWholeAfterEachStep(t *testing.T) {
	s, folder := opened(t), t.TempDir()
	scenario, lines := filepath.Join(folder, "a.json"), filepath.Join(folder, "a.out")
	is(t, s.Record(scenario, lines), nil)
	same(t, content(t, scenario), "{\"kill_on_debugger_exit\":1,\"steps\":[\n]}\n")
	user := s.User(1001)
	user.Spawn()
	user.Process(1000).PtraceAttach(99)
	s.Line("refused")
	same(t, content(t, scenario), `{"kill_on_debugger_exit":1,"steps":[
{"user":1001,"op":"spawn"},
{"user":1001,"op":"ptrace","caller":1000,"request":"PT_ATTACH","target":99}
]}
`)
	same(t, content(t, lines), "1001 1 new 1000 100000\n1001 2 error ESRCH 3\n")
	if s.Record(scenario, lines) == nil {
		t.Error("it is recorded already")
	}
	copied := must(s.Copy())(t)
	copied.User(1001).Spawn()
	same(t, strings.Count(content(t, lines), "\n"), 2)
	is(t, copied.CopyOver(s), nil)
	user.Spawn()
	same(t, strings.Count(content(t, lines), "\n"), 2)
}

func TestARecordingThatCannotBegin(t *testing.T) {
	s, folder := opened(t), t.TempDir()
	is(t, s.Record(filepath.Join(folder, "none", "a.json"), filepath.Join(folder, "a.out")), os.ErrNotExist)
	is(t, s.Record(filepath.Join(folder, "a.json"), folder), syscall.EISDIR)
	must(s.User(1001).Spawn())(t)
	if s.Record(filepath.Join(folder, "b.json"), filepath.Join(folder, "b.out")) == nil {
		t.Error("the session has made a step")
	}
}

func TestAStepThatCannotBeRecordedEndsTheSession(t *testing.T) {
	var before syscall.Rlimit
	is(t, syscall.Getrlimit(syscall.RLIMIT_FSIZE, &before), nil)
	s, scenario, lines := opened(t), filepath.Join(t.TempDir(), "a.json"), filepath.Join(t.TempDir(), "a.out")
	is(t, s.Record(scenario, lines), nil)
	user := s.User(1001)
	must(user.Spawn())(t)
	kept, keptLines := content(t, scenario), content(t, lines)
	is(t, syscall.Setrlimit(syscall.RLIMIT_FSIZE, &syscall.Rlimit{Cur: uint64(len(kept)), Max: before.Max}), nil)
	defer syscall.Setrlimit(syscall.RLIMIT_FSIZE, &before)
	_, err := user.Spawn()
	is(t, err, syscall.EFBIG)
	_, err = user.Spawn()
	is(t, err, syscall.EFBIG)
	_, err = s.Line("{}")
	is(t, err, syscall.EFBIG)
	same(t, content(t, scenario), kept)
	same(t, content(t, lines), keptLines)
	is(t, s.Close(), nil)
}

// A test by hand: it has failed or not, and runs its functions at its end.
type standIn struct {
	*testing.T
	name   string
	failed bool
	ends   []func()
}

func (s *standIn) Failed() bool        { return s.failed }
func (s *standIn) Cleanup(f func())    { s.ends = append(s.ends, f) }
func (s *standIn) Name() string        { return s.name }
func (s *standIn) Logf(string, ...any) {}

func (s *standIn) end() {
	for i := len(s.ends) - 1; i >= 0; i-- {
		s.ends[i]()
	}
}

func (s *standIn) left(folder string) string {
	var names []string
	for _, entry := range must(os.ReadDir(folder))(s.T) {
		names = append(names, strings.Replace(entry.Name(), stemOf(s.name), "STEM", 1))
	}
	return strings.Join(names, " ")
}

func TestAFailedTestLeavesItsSession(t *testing.T) {
	folder := t.TempDir()
	t.Setenv("TRACEHOST_ARTIFACTS", folder)
	t.Setenv("TRACEHOST_TRACES", filepath.Join(t.TempDir(), "traces"))
	t.Setenv("TRACEHOST", "/none")
	failing := &standIn{T: t, name: "TestFailing/with a case", failed: true}
	s := OpenTest(failing)
	must(s.User(1001).Spawn())(t)
	again := OpenTest(failing) // its files get a number
	must(again.User(1002).Spawn())(t)
	failing.end()
	same(t, failing.left(folder), "STEM-2.json STEM-2.out STEM.json STEM.out")
	same(t, content(t, filepath.Join(folder, stemOf(failing.Name())+".out")), "1001 1 new 1000 100000\n")
	same(t, len(must(os.ReadDir(os.Getenv("TRACEHOST_TRACES")))(t)), 2)
	_, err := s.User(1001).Spawn()
	is(t, err, ErrNotOpen)
}

func TestATestThatPassesRemovesWhatItLeft(t *testing.T) {
	folder := t.TempDir()
	t.Setenv("TRACEHOST_ARTIFACTS", folder)
	passing := &standIn{T: t, name: "TestPassing"}
	name := filepath.Join(folder, stemOf(passing.name))
	for _, end := range []string{".json", ".out", ".html", ".json.1", "-2.out.1", ".txt", "x.json"} {
		is(t, os.WriteFile(name+end, nil, 0o666), nil)
	}
	before := began
	began = time.Now().Add(time.Second) // they are older than the process
	defer func() { began = before }()
	must(OpenTest(passing).User(1001).Spawn())(t)
	passing.end()
	same(t, passing.left(folder), "STEM.txt STEMx.json")
}

func TestATestThatPassesLeavesWhatItsProcessKept(t *testing.T) {
	folder := t.TempDir()
	t.Setenv("TRACEHOST_ARTIFACTS", folder)
	t.Setenv("TRACEHOST", "/none")
	for _, failed := range []bool{true, false} {
		again := &standIn{T: t, name: "TestAgain", failed: failed}
		must(OpenTest(again).User(1001).Spawn())(t)
		again.end()
		same(t, again.left(folder), "STEM.json STEM.out")
	}
}

func TestLinesThatCannotBeKept(t *testing.T) {
	folder, said, before := t.TempDir(), "", say
	t.Setenv("TRACEHOST_ARTIFACTS", folder)
	t.Setenv("TRACEHOST", "/none")
	say = func(format string, words ...any) { said += format }
	defer func() { say = before }()
	failing := &standIn{T: t, name: "TestKept", failed: true}
	is(t, os.MkdirAll(filepath.Join(folder, stemOf(failing.name)+".out", "file"), 0o777), nil)
	must(OpenTest(failing).User(1001).Spawn())(t)
	failing.end()
	same(t, strings.Contains(said, "the record stays"), true)
}

func TestATestWithoutAFolder(t *testing.T) {
	file := filepath.Join(t.TempDir(), "file")
	is(t, os.WriteFile(file, nil, 0o666), nil)
	t.Setenv("TRACEHOST_ARTIFACTS", file)
	passing := &standIn{T: t, name: t.Name()}
	must(OpenTest(passing).User(1001).Spawn())(t)
	passing.end()
}

// stopsBy is a debugger that takes the signal of a stop for the end of a PT_STEP, if SIGTRAP is wanted. It is the session of the
// same tests in other languages.
func stopsBy(t *testing.T, wanted Signal) {
	t.Helper()
	if os.Getenv("TRACEHOST_FAILS") == "" {
		t.Skip("tests/python/failing_programs.py sets TRACEHOST_FAILS")
	}
	user := OpenTest(t).User(1001)
	debugger, target := traced(t, user)
	switch os.Getenv("TRACEHOST_FAILS") {
	case "dies":
		must(1, syscall.Kill(os.Getpid(), syscall.SIGKILL))(t)
	case "passes":
		return
	}
	is(t, debugger.PtraceStep(target.Pid, 0), nil)
	must(user.Turn(target.Lwp, Raise(SIGSEGV)))(t)
	must(user.Turn(target.Lwp, Compute))(t)
	if _, status, err := debugger.Wait4(Any, 0); status.StopSignal() != wanted || err != nil {
		t.Fatal(status, err)
	}
}

func TestFails(t *testing.T) {
	stopsBy(t, SIGTRAP)
}

func TestPasses(t *testing.T) {
	stopsBy(t, SIGSEGV)
}

// TestSteps makes the steps of the lines of the file STEPS, and fails, for tests/python/test_faults_in_suites.py.
func TestSteps(t *testing.T) {
	name, isSet := os.LookupEnv("STEPS")
	if !isSet {
		t.Skip("tests/python/test_faults_in_suites.py sets STEPS")
	}
	s := OpenTest(t)
	for _, line := range strings.Split(strings.TrimSpace(content(t, name)), "\n") {
		must(s.Line(line))(t)
	}
	t.Fatal("after all steps")
}

// TestSideBySide has so many tests as TRACEHOST_COUNT says, for tests/python/test_records_at_once.py: the Nth makes 1 to 5 steps.
// FAILING says which fail: all, none, or those with an even number.
func TestSideBySide(t *testing.T) {
	count, err := strconv.Atoi(os.Getenv("TRACEHOST_COUNT"))
	if err != nil {
		t.Skip("tests/python/test_records_at_once.py sets TRACEHOST_COUNT")
	}
	for n := 0; n < count; n++ {
		n := n
		t.Run(strconv.Itoa(n), func(t *testing.T) {
			t.Parallel()
			user := OpenTest(t).User(1001)
			for i := 0; i <= n%5; i++ {
				must(user.Spawn())(t)
			}
			if failing, isSet := os.LookupEnv("FAILING"); failing == "all" || !isSet && n%2 == 0 {
				t.Fatal("it is to fail")
			}
		})
	}
}
