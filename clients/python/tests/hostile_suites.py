"""Suites of random tests that patch, close, limit and raise what they like, each from a seed."""

from __future__ import annotations

import random
from collections.abc import Sequence
from typing import NamedTuple

TESTS = 24
WORKERS = ["-n2", "--dist=loadfile"]  # one worker for each file, so that its tests come in their order

HEAD = '''\
import builtins, contextlib, errno, gc, glob, hashlib, io, itertools, json, os, pathlib, pickle, pytest, random, re, resource
import shutil, signal, socket, subprocess, sys, tempfile, threading, time, traceback, unittest, uuid, warnings, weakref
from collections import UserString
from tracehost import *

class Unprintable(Exception):
    def __str__(self):
        raise RuntimeError("no text")
    __repr__ = __str__

class Ending(Exception):
    def __str__(self):
        raise SystemExit(9)

class Recursive(Exception):
    def __str__(self):
        return str(self)

class Odd:
    """Neither its class nor its text can be asked for."""
    @property
    def __class__(self):
        raise RuntimeError("outside of a context")
    def __repr__(self):
        raise ZeroDivisionError("no text")
    def __eq__(self, other):
        return False

def forbidden(*arguments, **settings):
    raise RuntimeError("not in unit tests")

def failing(*arguments, **settings):
    pytest.fail("not in unit tests")

def close_records():
    """Closes the files of records, if there are some."""
    for name in os.listdir("/proc/self/fd"):
        with contextlib.suppress(OSError):
            if re.search(r"\\.(json|out)(\\.\\d+)?$", os.readlink(f"/proc/self/fd/{name}")):
                os.close(int(name))

@contextlib.contextmanager
def limited(what, most):
    before = resource.getrlimit(what)
    resource.setrlimit(what, (most, before[1]))
    try:
        yield
    finally:
        resource.setrlimit(what, before)

def use(host, steps):
    """Some steps of a session, whose replies are known."""
    user = host.user(1001)
    first = user.spawn()
    for _ in range(steps):
        target = user.spawn()
        user.process(first).ptrace(Request.PT_ATTACH, target.pid)
    with pytest.raises(OSError):
        user.process(first).ptrace(Request.PT_ATTACH, 4711)
    with contextlib.suppress(RefusedStep):
        host.line("{")
    return user.process(first)
'''

REPLACED = """
    builtins.open builtins.print contextlib.suppress errno.errorcode gc.collect glob.glob hashlib.sha256 hashlib.new io.open
    itertools.chain json.dumps json.loads json.JSONEncoder os.access os.close os.dup os.environ.get os.fork os.fsencode
    os.fspath os.fstat os.ftruncate os.getcwd os.getpid os.kill os.listdir os.makedirs os.mkdir os.open os.pread os.pwrite os.read
    os.remove os.scandir os.stat os.strerror os.unlink os.waitpid os.write pathlib.Path.glob pathlib.Path.mkdir
    pathlib.Path.open pathlib.Path.unlink pathlib.Path.with_suffix pathlib.Path.write_bytes pickle.dumps random.random
    resource.getrlimit shutil.which shutil.rmtree signal.signal socket.socket subprocess.Popen subprocess.run
    tempfile.TemporaryDirectory tempfile.TemporaryFile tempfile.mkdtemp threading.Condition threading.RLock threading.Thread
    time.monotonic time.sleep time.time uuid.uuid4 warnings.warn weakref.finalize weakref.WeakSet sys.stderr sys.stdout
""".split()
BY = ["forbidden", "failing", "sys.exit", "None", "lambda *words, **settings: None", "KeyError"]

ENDS = [
    *["pass"] * 4,
    "assert 0",
    "assert host is None",
    "assert process.list() == (1000,)",
    "assert Waited(1001, 4479) == (1001, 1407)",
    "assert Waited('a', None) == Waited(3, '')",
    "assert Odd() == Waited(1, 2)",
    "assert Waited(1, 2) == Odd()",
    "assert Odd() == Odd()",
    "assert UserString('a') == New(1, 2)",
    "raise ValueError('read a\\0b')",
    "raise ValueError('half \\ud800 and \\udce9')",
    "raise ValueError('\\x1b[31m' * 5000)",
    "raise Unprintable",
    "raise Ending",
    "raise Recursive",
    "raise ValueError(Unprintable())",
    "raise SystemExit(3)",
    "raise GeneratorExit",
    "raise BaseException('base')",
    "raise StopIteration",
    "raise MemoryError",
    "raise OSError(5, 'odd', 'a\\0b')",
    "raise ExceptionGroup('several', [Unprintable(), ValueError('\\0')]) if sys.version_info > (3, 11) else Unprintable",
    "raise RuntimeError from Unprintable()",
    "process.wait4()",
    "host.step({'user': 1001, 'op': 'jump'})",
    "host.close(); host.line('{}')",
    "pytest.skip('\\ud800 skipped')",
    "pytest.xfail('\\0')",
    "pytest.fail('\\0 \\ud800', pytrace=False)",
    "raise unittest.SkipTest('odd')",
    "warnings.warn('\\0')",
    "assert capfd.readouterr() == ('', '')",
]
# pytest itself leaves a test's other fixtures set up if one ends so
NOT_AT_ITS_END = ("SystemExit", "GeneratorExit", "BaseException")
# what stays after a test isn't for workers: any of them may run the next one
LASTING = [
    "subprocess.run = forbidden",
    "resource.setrlimit(resource.RLIMIT_NOFILE, (3, 3))",
    "tempfile.tempdir = '/dev/null'",
    "os.environ.clear()",
    "sys.stderr = None",
    "gc.disable()",
]


class Suite(NamedTuple):
    files: dict[str, str]
    words: list[str]
    """What pytest gets."""
    folder: str
    """The folder of the artifacts; "" for none."""


def made(seed: int, plugins: Sequence[str]) -> Suite:
    """The suite of a seed, for a pytest with these plugins."""
    chance = random.Random(seed)
    of_plugins = {"xdist": WORKERS, "pytest_forked": ["--forked"], "pytest_rerunfailures": ["--reruns=1"]}
    modes = [words for plugin, words in of_plugins.items() if plugin in plugins]
    modes += [["-Werror"], [], ["--capture=sys"], ["-s"], ["--tb=native"], ["--tb=no", "-v"], ["--maxfail=7"]]
    modes += [["--junit-xml=x.xml"]]
    words = modes[seed % len(modes)]
    lasting = LASTING if words != WORKERS else []
    tests = [_test(chance, number, "pytest_subtests" in plugins, lasting) for number in range(TESTS)]
    folder = chance.choice(["", "left", "left", "/dev/null/nowhere", "/proc/1/nowhere", "test_a.py"])
    halves = {"test_a.py": "".join(tests[::2]), "test_b.py": "".join(tests[1::2])}
    if words == WORKERS:  # a worker's message can't have half of a character, whatever the plugins
        halves = {name: text.replace("\\ud800", "").replace("\\udce9", "") for name, text in halves.items()}
    return Suite({name: HEAD + text for name, text in halves.items()}, words, folder)


def _test(chance: random.Random, number: int, has_subtests: bool, lasting: Sequence[str]) -> str:
    fixtures = ["tracehost", "new_tracehost", "monkeypatch", "tmp_path", "capfd"] + ["subtests"] * has_subtests
    chance.shuffle(fixtures)
    host = chance.choice(["tracehost", "new_tracehost()", "new_tracehost('a\\0/..')"])
    body = [f"host = {host}", f"process = use(host, {chance.randrange(4)})"]
    body += [_change(chance, lasting) for _ in range(chance.choice((0, 1, 1, 2, 3)))]
    if chance.random() < 0.3:
        body.append(f"process = use(new_tracehost(), {chance.randrange(3)})")
    end = chance.choice(ENDS)
    if has_subtests and chance.random() < 0.3:
        body += ["with subtests.test('one'):", f"    {chance.choice(ENDS)}"]
    if chance.random() < 0.2:
        fixtures.append("prepared")
    text = "".join(f"    {line}\n" for line in [*body, end])
    before = ""
    if "prepared" in fixtures:
        early, late = chance.choice(["pass", *ENDS[4:]]), chance.choice(["pass", *ENDS[4:]])
        early, late = ("pass" if "capfd" in end else end for end in (early, late))
        late = "pass" if any(name in late for name in NOT_AT_ITS_END) else late
        before = (
            "@pytest.fixture\ndef prepared(tracehost):\n    host, process = tracehost, use(tracehost, 1)\n"
            f"    {chance.choice(['pass', early])}\n    yield\n    {late}\n\n"
        )
        before, fixtures[-1] = before.replace("prepared", f"prepared_{number}"), f"prepared_{number}"
    return f"\n\n{before}def test_{number}({', '.join(fixtures)}):\n{text}"


def _change(chance: random.Random, lasting: Sequence[str]) -> str:
    """A statement of a test that changes what is around it."""
    kind = chance.randrange(10)
    if kind < 6:
        return f"monkeypatch.setattr({chance.choice(REPLACED)!r}, {chance.choice(BY)})"
    if kind == 6 and lasting and chance.random() < 0.3:
        return chance.choice(lasting)
    return chance.choice(
        [
            "close_records()",
            "monkeypatch.chdir(tmp_path); shutil.rmtree(tmp_path)",
            "shutil.rmtree(tmp_path.parent, ignore_errors=True)",
            "monkeypatch.setenv('TRACEHOST', 'a\\udce9')",
            "monkeypatch.setenv('PATH', '')",
            "with limited(resource.RLIMIT_NOFILE, 3): use(new_tracehost('limited'), 1)",
            "with limited(resource.RLIMIT_FSIZE, 0): use(host, 2)",
            "with limited(resource.RLIMIT_FSIZE, 700): use(new_tracehost('more'), 9)",
            "os._exit(0) if os.fork() == 0 else os.wait()",
            "sys.modules.pop('subprocess')",
        ]
    )
