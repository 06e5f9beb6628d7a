"""The prompt: by lines on a pipe, and by keys on a terminal. The program is the one that TRACEHOST names."""

from __future__ import annotations

import io
import json
import os
import pathlib
import pty
import select
import subprocess
import sys
import tempfile
import time
import unittest

CLIENT = pathlib.Path(__file__).resolve().parents[1]
sys.path.insert(0, str(CLIENT))
from tracehost.completion import complete_words
from tracehost.manual import explain, topics
from tracehost.names import CALLER_OPS, Call, Request, Signal
from tracehost.prompt import Prompt
from tracehost.saving import Session
from tracehost.step_words import ACTS, Unclear, step_of


class Words(unittest.TestCase):
    def test_steps(self) -> None:
        """Each kind of step, against its keys in docs/FORMAT.md."""
        steps = {
            "spawn": '{"op":"spawn"}',
            "list 1000": '{"op":"list","caller":1000}',
            "handle 1000": '{"op":"handle","caller":1000}',
            "wait4 1000": '{"op":"wait4","caller":1000,"which":-1}',
            "wait4 1000 1001 WNOHANG": '{"op":"wait4","caller":1000,"which":1001,"options":["WNOHANG"]}',
            "kill 1000 -1 SIGTERM": '{"op":"kill","caller":1000,"which":-1,"signal":15}',
            "sigaction 1000 20 catch": '{"op":"sigaction","caller":1000,"signal":20,"action":"catch"}',
            "ptrace 1000 PT_ATTACH 1001": '{"op":"ptrace","caller":1000,"request":"PT_ATTACH","target":1001}',
            "ptrace 1000 PT_STEP 1001 SIGUSR1": '{"op":"ptrace","caller":1000,"request":"PT_STEP","target":1001,"data":30}',
            "ptrace 1000 PT_TRACE_ME": '{"op":"ptrace","caller":1000,"request":"PT_TRACE_ME"}',
            "ptrace 1000 PT_SET_EVENT_MASK 1001 PTRACE_FORK PTRACE_SYSCALL": (
                '{"op":"ptrace","caller":1000,"request":"PT_SET_EVENT_MASK","target":1001,'
                '"mask":["PTRACE_FORK","PTRACE_SYSCALL"]}'
            ),
            "install 1000 SIGTRAP PL_FLAG_SCE continue, SIGUSR1 detach 15": (
                '{"op":"install","caller":1000,"rules":[{"decision":"continue","flags":["PL_FLAG_SCE"],"signal":5},'
                '{"decision":"detach","pass":15,"signal":30}]}'
            ),
            "turn 100001 compute": '{"op":"turn","lwp":100001,"act":"compute"}',
            "turn 100001 enter exit 3": '{"op":"turn","lwp":100001,"act":"enter","call":"exit","code":3}',
            "turn 100001 raise SIGSEGV": '{"op":"turn","lwp":100001,"act":"raise","signal":11}',
            "turn 100001 block SIGINT 15": '{"op":"turn","lwp":100001,"act":"block","set":[2,15]}',
        }
        for words, wanted in steps.items():
            self.assertEqual(step_of(words.split(), 1001), {"user": 1001, **json.loads(wanted)}, words)

    def test_what_is_no_step(self) -> None:
        for words in (
            "",
            "fly",
            "1000",
            "list",
            "spawn 3",
            "ptrace 1000 PT_FOO 1001",
            "turn",
            "turn 100001",
            "turn 100001 fly",
            "kill 1000 1",
            "1000 list",
            "100001 compute",
            "install 1000 SIGTRAP",
            "install 1000 continue 5 6",
            "1002:",
        ):
            with self.assertRaises(Unclear, msg=words):
                step_of(words.split(), 1001)

    def test_the_user(self) -> None:
        self.assertEqual(step_of(["spawn"], 1002), {"user": 1002, "op": "spawn"})
        self.assertEqual(step_of(["1002:", "list", "2000"], 1001), {"user": 1002, "op": "list", "caller": 2000})

    def test_another_order(self) -> None:
        """Who begins with the caller is shown the whole step."""
        for words, wanted in {
            "1000 ptrace PT_ATTACH 1001": "ptrace 1000 PT_ATTACH 1001",
            "1000 PT_ATTACH 1001": "ptrace 1000 PT_ATTACH 1001",
            "1000 kill 1001 9": "kill 1000 1001 9",
            "100001 enter fork": "turn 100001 enter fork",
        }.items():
            with self.assertRaisesRegex(Unclear, f"^the op comes first: {wanted}$"):
                step_of(words.split(), 1001)

    def test_completion(self) -> None:
        numbers = [1000, 1001, 1002, 100000, 100001]
        self.assertEqual(complete_words(["list"], "10", numbers), ["1000", "1001", "1002"])
        self.assertEqual(complete_words(["ptrace", "1000"], "PT_CO", numbers), ["PT_CONTINUE"])
        self.assertEqual(complete_words(["wait4", "1000"], "W", numbers), ["WCONTINUED", "WNOHANG", "WUNTRACED"])
        self.assertEqual(complete_words(["ptrace", "1000", "PT_ATTACH"], "100", numbers)[-1], "1002")
        self.assertEqual(
            complete_words(["1002:", "ptrace", "1000", "PT_CONTINUE", "1001"], "SIGUS", numbers), ["SIGUSR1", "SIGUSR2"]
        )
        self.assertEqual(complete_words(["turn"], "", numbers), ["100000", "100001"])
        self.assertEqual(complete_words(["turn", "100001"], "e", numbers), ["enter"])
        self.assertEqual(complete_words(["turn", "100001", "enter"], "v", numbers), ["vfork"])
        self.assertEqual(complete_words(["help"], "PT_D", numbers), ["PT_DETACH"])

    def test_help_for_every_name(self) -> None:
        calls = {call.value for call in Call}
        names = {"spawn", "turn", *CALLER_OPS, *ACTS, *calls, *Request.__members__, *Signal.__members__}
        self.assertEqual(names - set(topics()), {"list"})  # the prompt's own command has its help
        for name in topics():
            self.assertNotIn("No help", explain(name))


class Sessions(unittest.TestCase):
    def setUp(self) -> None:
        room = tempfile.TemporaryDirectory()
        self.addCleanup(room.cleanup)
        self.room = pathlib.Path(room.name)

    def output(self, *lines: str) -> str:
        """What the prompt prints for these lines."""
        text = io.StringIO()
        prompt = Prompt(Session("session", (), None), stdout=text)
        self.addCleanup(prompt.close)
        for line in lines:
            prompt.onecmd(line)
        return text.getvalue()

    def test_undo_runs_the_session_again(self) -> None:
        text = self.output("spawn", "spawn", "ptrace 1000 PT_ATTACH 1001", "wait4 1000", "undo 2", "wait4 1000", "list 1000")
        self.assertIn("status 1001 4479   (stopped SIGSTOP)", text)
        why = "1000 has no child and traces no process"
        self.assertIn(f"2 undone, 2 left\n1001 3 error ECHILD 10   ({why})\n1001 4 pids 1000 1001\n", text)

    def test_save_and_view(self) -> None:
        scenario, page = self.room / "s.json", self.room / "s.html"
        text = self.output(
            "spawn", "user 1002", "spawn", "1001: list 1000", f"save {scenario}", f"view {page}", "list", "save /nowhere/s"
        )
        self.assertEqual([step["user"] for step in json.loads(scenario.read_text())["steps"]], [1001, 1002, 1001])
        self.assertIn(page.as_uri(), text)
        self.assertIn('"pid":2000,"lwp":104000', page.read_text())
        self.assertIn("     2 1002: spawn -> new process 2000, LWP 104000\n", text)
        self.assertIn("/nowhere/s: No such file or directory", text)

    def test_what_is_no_step(self) -> None:
        text = self.output('{"user":1001,"op":"fly"}', "fly", "", "user 7", "help PT_CONTINUE", "help undo")
        self.assertRegex(text, 'refused BadName: op: "fly"')
        self.assertIn("no step: fly", text)
        self.assertIn("Resumes the target", text)
        self.assertIn("takes back the last step", text)

    def test_mistakes_have_the_wrong_word_and_what_was_meant(self) -> None:
        text = self.output(
            "spawn", "spwan", "ptrace 1000 PT_ATACH 1001", "kil 1000 1000 SIGTERM", "kill 1000 1000 SIGTRM", "turn 100000 leaf",
            "turn 100000 enter frok", "list 1000 7", "ptrace 1000 PT_SET_EVENT_MASK 1001 PTRACE_FRK", "undo 9", "undo", "undo",
        )  # fmt: skip
        said = text.splitlines()[1:]
        for line, wanted in zip(said, (
            "no step: spwan; did you mean spawn?",
            "PT_ATACH: none of the requests PT_TRACE_ME,",
            "no step: kil 1000 1000 SIGTERM; did you mean kill?",
            "SIGTRM is no number; did you mean SIGTERM?",
            "leaf: an LWP's turn has one of the acts compute, raise, block, enter, leave; did you mean leave?",
            "frok: none of the calls exit, fork, vfork,",
            "7: this op has no further words",
            "PTRACE_FRK: none of the events PTRACE_EXEC,",
            "undo [N]: N is 1 to 1",
            "1 undone, 0 left",
            "there is no step to undo",
        )):  # fmt: skip
            self.assertIn(wanted, line)
        self.assertEqual(len(said), 11)

    def test_a_closed_standard_output(self) -> None:
        """One line at most on standard error, and a status."""
        environment = {**os.environ, "PYTHONPATH": str(CLIENT)}
        for output, said in (("| true", ""), (">/dev/full", "tracehost-debug: standard output: No space left on device\n")):
            code = f"(sleep 0.2; yes spawn | head -n 100) | '{sys.executable}' -u -m tracehost.debug {output}"
            done = subprocess.run(["bash", "-c", f"{code}; exit ${{PIPESTATUS[1]}}"], stderr=subprocess.PIPE, text=True,
                                  env=environment)  # fmt: skip
            self.assertEqual((done.stderr, done.returncode), (said, 1))

    def test_lines_on_a_pipe(self) -> None:
        command = [sys.executable, "-m", "tracehost.debug"]
        environment = {**os.environ, "PYTHONPATH": str(CLIENT)}
        done = subprocess.run(command, input="spawn\nlist 1000\n", stdout=subprocess.PIPE, text=True, env=environment)
        self.assertEqual((done.stdout, done.returncode), ("1001 1 new 1000 100000\n1001 2 pids 1000\n\n", 0))

    def test_keys_on_a_terminal(self) -> None:
        """`python -m tracehost` without words: completion by Tab, the last line by the arrow, Control-D ends it."""
        environment = {**os.environ, "PYTHONPATH": str(CLIENT), "TERM": "dumb"}
        environment["TRACEHOST_HISTORY"] = str(self.room / "h")
        mine, its = pty.openpty()
        command = [sys.executable, "-m", "tracehost"]
        child = subprocess.Popen(command, stdin=its, stdout=its, stderr=its, env=environment)
        os.close(its)
        self.addCleanup(os.close, mine)
        self.addCleanup(child.wait)
        self.addCleanup(child.kill)
        self.until(mine, "tracehost> ")
        for keys, wanted in (
            ("spa\t\r", "1001 1 new 1000 100000"),
            ("\x1b[A\r", "1001 2 new 1001 100001"),
            ("ptrace 1000 PT_AT\t 1001\r", "1001 3 ok"),
        ):
            os.write(mine, keys.encode())
            self.until(mine, wanted)
            self.until(mine, "tracehost> ")
        os.write(mine, b"\x04")
        self.assertEqual(child.wait(60), 0)
        self.assertIn("ptrace 1000 PT_ATTACH", (self.room / "h").read_text())

    def until(self, terminal: int, wanted: str) -> None:
        """Reads until the terminal shows this."""
        shown, end = "", time.monotonic() + 60
        while wanted not in shown:
            ready, _, _ = select.select([terminal], [], [], max(0, end - time.monotonic()))
            self.assertTrue(ready, f"{wanted!r} isn't shown: {shown!r}")
            shown += os.read(terminal, 1).decode()


if __name__ == "__main__":
    unittest.main()
