"""The numbers of the runtime's questions: what each may be, and where that ends.

`forging` says each number at its ends, in a question that is as the runtime's otherwise, and at a time when the runtime could ask it.
"""

from __future__ import annotations

from typing import NamedTuple


class Kind(NamedTuple):
    """Of a number: the first and the last that the broker has room or a meaning for, and one that does."""

    first: int
    last: int
    usual: int
    refused: bool = False
    """The runtime never says another one: the broker ends the run."""

    def beyond(self) -> list[int]:
        """What it may not be."""
        return [number for number in self.ends() if not self.first <= number <= self.last]

    def ends(self) -> list[int]:
        """The last that it may be, the first that it may not be, and what has no room in a smaller type, or is the usual one there."""
        return sorted({self.first - 1, self.first, self.last, self.last + 1, self.usual + WIDER, *FAR})


class Edge(NamedTuple):
    """A question with one number at an end."""

    name: str
    place: int
    number: int


FAR = (-(2**63), -(2**31), -1, 0, 2**31 - 1, 2**31, 2**32, 2**63 - 1)
WIDER = 2**32
NEWEST, NEWEST_LWP = -1000, -1001
"""As the usual number: of the newest child, and of its LWP."""

PROCESS = Kind(1000, 1999, 1000)
CHILD = Kind(1000, 1999, NEWEST)
LWP = Kind(100000, 103999, 100000)
TARGET = Kind(100000, 103999, NEWEST_LWP)
SIGNAL = Kind(1, 31, 28)  # SIGWINCH, which nobody minds
TO_SEND = Kind(0, 31, 28)
BITS = Kind(0, 2**32 - 1, 0)
FLAG = Kind(0, 1, 1)
CODE = Kind(0, 2**31 - 1, 20)
OF_CALL = CODE._replace(refused=True)  # that the thread stays in
INT = Kind(-(2**31), 2**31 - 1, 0, refused=True)
ADDRESS = Kind(0, 2**64 - 1, 0x401136)
TIME = Kind(0, 2**63 - 1, 1000)
MOST = Kind(1, 250, 1)  # of a user's processes: then there is no fork
PLACE = Kind(0, 7, 0)  # a list has room for so many at first
TIMER = Kind(0, 999, 7)

FIELDS: dict[str, tuple[Kind, ...]] = {
    "hello": (),  # HELLOS
    "fork": (MOST,),
    "vfork": (MOST,),
    "pdfork": (FLAG, MOST),
    "thr_new": (),
    "thr_exit": (),
    "exec": (),
    "foreign": (Kind(-(2**63), 2**63 - 1, 0), Kind(-(2**63), 2**63 - 1, 0)),
    "exit": (Kind(0, 255, 0, refused=True),),
    "user": (),
    "poke": (Kind(0, 2, 0, refused=True),),
    "compute": (),
    "point": (),
    "cancel": (LWP,),
    "call": (CODE,),
    "yield": (),
    "getppid": (),
    "join": (LWP, TIME),
    "stat": (PROCESS, PLACE),
    "kill": (INT._replace(usual=NEWEST), INT._replace(usual=28)),
    "thr_kill": (LWP, TO_SEND),
    "fault": (SIGNAL, CODE, ADDRESS),
    "trace": (ADDRESS,),
    "action": (SIGNAL, Kind(0, 2, 1, refused=True), ADDRESS, BITS, BITS),
    "mask": (Kind(0, 3, 1), BITS),
    "suspend": (BITS,),
    "pause": (),
    "masked": (OF_CALL, BITS),
    "restore": (),
    "sigwait": (BITS, TIME),
    "pending": (),
    "sleep": (TIME,),
    "clock": (),
    "timer": (
        TIMER._replace(refused=True),
        TO_SEND._replace(refused=True),
        TIME._replace(refused=True),
        TIME._replace(usual=0, refused=True),
    ),
    "timer_left": (TIMER,),
    "overrun": (TIMER,),
    "setpgid": (INT, INT),
    "setsid": (),
    "group": (CODE._replace(refused=True), PROCESS),
    "ptrace": (Kind(0, 26, 13), INT._replace(usual=NEWEST), INT, FLAG._replace(usual=0)),
    "memory": (CHILD, FLAG),
    "registers": (TARGET,),
    "apply": (TARGET, Kind(0, 3, 0), FLAG, BITS),
    "setstep": (TARGET, FLAG),
    "thread": (TARGET,),
    "wait": (CHILD, Kind(0, 7, 1)),  # WNOHANG
    "begin": (OF_CALL,),
    "replace": (CODE, FLAG),
    "end": (TO_SEND,),
    "enter": (OF_CALL, BITS),
    "leave": (),
    "io": (CODE,),
    "again": (BITS, TIME),
    "watch": (PROCESS, FLAG),
    "unwatch": (PROCESS,),
    "count": (SIGNAL, FLAG),
    "news": (),
    "undescribed": (CHILD._replace(refused=True),),
}
WORDS = {("enter", 0): "read", ("enter", 1): "write", ("again", 0): "poll", ("again", 1): "semaphore"}
"""Of questions that have a word too, by the number at its end."""

_ATTACHED: tuple[str, ...] = ("child", "ask ptrace 10 $C 0", "ask wait $C 2")
_CALLED: tuple[str, ...] = ("ask begin 20",)
_TIMED: tuple[str, ...] = ("ask timer 7 28 1000000 1000000",)
BEFORE: dict[str, tuple[str, ...]] = {
    "kill": ("child",),
    **dict.fromkeys(("ptrace", "memory", "registers", "apply", "setstep", "thread", "wait"), _ATTACHED),
    **dict.fromkeys(("replace", "end"), _CALLED),
    **dict.fromkeys(("timer_left", "overrun"), _TIMED),
    "again": ("ask enter 3 read 0",),
    "unwatch": ("ask watch 1000 1",),
    "count": ("ask count 30 1",),
    "undescribed": ("described",),
}
"""What makes it the time for a question; $C is the number of the newest child."""
AFTER: dict[str, tuple[str, ...]] = {
    "masked": ("ask restore",),
    "enter": ("ask leave",),
    "again": ("ask leave",),
    "begin": ("ask end 0",),
    "thr_kill": ("ask getppid",),
    "watch": ("ask news",),
    "count": ("ask thr_kill 100000 28", "ask news", "ask count 30 0"),
    "timer": ("ask sleep 1000", "ask overrun 7", "ask timer 7 28 0 0"),
    **dict.fromkeys(("timer_left", "overrun"), ("ask timer 7 28 0 0",)),
}
FIRST = ("ask action 1 1 0 0 0", "ask action 31 1 0 0 0", "ask action 30 2 4198710 1 0")
"""The first and the last signal are ignored, and one has a handler."""
LEAVES = ("fork", "vfork", "pdfork", "suspend", "exit", "undescribed")
"""Nobody goes on after these, or has the new process's socket."""
HELLOS = {  # what a new image says, and whether it is refused
    "$P $T 0 -1": True,
    "$P $T 0 2": True,
    "-1 $T 0 0": True,
    "$P -1 0 0": True,
    "x $T 0 0": True,
    "$P x 0 0": True,
    "$P $T.0 0": True,
    "$P $T x 0": True,
    "$P $T 0": True,
    "$P $T 0 0 x": True,
    f"$P {2**31} 0 0": False,
    f"0 {2**63 - 1} ffffffffffffffff 1": False,
}
LONG = f"call {20:0600}"
"""Longer than what is kept of a question."""
REFUSED = (f"call {' 1' * 7}", f"call{' 1' * 8}", f"ptrace{' 1' * 40}", f"call {20:05000}")
"""Of more numbers than any question has; longer than a message."""


def is_near(edge: Edge) -> bool:
    """Whether the number is beside an end."""
    kind = FIELDS[edge.name][edge.place]
    return edge.number in (kind.first - 1, kind.first, kind.last, kind.last + 1)


def is_refused(edge: Edge) -> bool:
    """Whether the broker ends the run there."""
    kind = FIELDS[edge.name][edge.place]
    return kind.refused and edge.number in kind.beyond()


def is_last(edge: Edge) -> bool:
    """Whether little comes after it: the thread waits for ever, or all time is over."""
    kind = FIELDS[edge.name][edge.place]
    if edge.name == "wait" and edge.place == 1:
        return edge.number % 2 == 0  # without WNOHANG
    until = edge.name in ("sleep", "join", "sigwait", "again") and kind == TIME
    return edge.name in LEAVES or is_refused(edge) or (until and not 0 <= edge.number < kind.last)


def edges() -> list[Edge]:
    """All. The numbers beside an end come before those that are far from it."""
    found = [
        Edge(name, place, number) for name, kinds in FIELDS.items() for place, kind in enumerate(kinds) for number in kind.ends()
    ]
    return sorted(found, key=is_near, reverse=True)


def asked(edge: Edge, children: int) -> str:
    """The question, after so many children."""
    own = {NEWEST: 1000 + children, NEWEST_LWP: 100000 + children}
    own |= {number + WIDER: own[number] + WIDER for number in own}
    numbers = [kind.usual for kind in FIELDS[edge.name]]
    numbers[edge.place] = edge.number
    return question(edge.name, [str(own.get(number, number)) for number in numbers], WORDS.get(edge[:2], ""))


def question(name: str, numbers: list[str], word: str = "") -> str:
    """In the form of the runtime's. In `enter` the word is behind the first number."""
    at = 1 if name == "enter" else 0
    return " ".join([name, *numbers[:at], *([word] if word else []), *numbers[at:]])


class Lines:
    """A script's, of questions that are at their time."""

    def __init__(self) -> None:
        self.lines: list[str] = []
        self.children = 0
        self.say_all(*FIRST)

    def say_all(self, *lines: str) -> None:
        """Each with a question as its text; $C is the number of the newest child."""
        for line in lines:
            self.children += line in ("child", "described")
            word, _, text = line.replace("$C", str(1000 + self.children)).partition(" ")
            self.lines.append(f"ask {f'0 {text}'.encode().hex()}" if word == "ask" else word)

    def ask(self, edge: Edge) -> None:
        """A question at its time."""
        self.say_all(*BEFORE.get(edge.name, ()))
        self.say_all(f"ask {asked(edge, self.children)}", *AFTER.get(edge.name, ()))

    def hello(self, words: str) -> None:
        """Of a new image, after that of the script's program."""
        self.say_all("ask exec", f"ask hello {words}", "ask getppid")

    def text(self) -> str:
        return "\n".join(self.lines) + "\n"
