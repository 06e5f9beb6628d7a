"""Messages that a hostile program forges, one or a few at a time, and what its run comes to."""

from __future__ import annotations

from forged_numbers import Lines


def hexed(*lines: tuple[str, str | bytes]) -> str:
    """A script: of each line the word, and the message, or a number."""
    texts = ((word, message.encode() if isinstance(message, str) else message) for word, message in lines)
    return "".join(f"{word} {message.hex()}\n" for word, message in texts)


def timely(*said: str) -> str:
    """Questions at their time; $C is the number of the newest child."""
    lines = Lines()
    lines.say_all(*said)
    return lines.text()


def answered(*said: tuple[str, str | bytes]) -> str:
    """What a debugger's stopped child says in place of its registers."""
    return "trace\ncall 7\n" + hexed(("ask", "0 thr_kill 100001 17"), ("ask", "0 user"), *said)


ALL = str(2**32 - 1)
"""As a number of a process -1, which is everybody's."""
WROTE, BEGINS, OTHER = "has written", "begins with", "another one than the runtime has written"
CASES: dict[str, tuple[str, int, str]] = {  # what is said, the status, and what the run says
    "nothing": (hexed(("send", "")), 3, WROTE),
    "too_long": (hexed(("send", "0 call " + "20".zfill(5000))), 3, WROTE),
    "a_fault_of_the_runtime": (hexed(("send", "0 broken by \x1b[31m force")), 3, r"process 1000: by \x1b[31m force"),
    "a_remark": (hexed(("send", "0 remark \x1b[31m red"), ("ask", "0 getppid")), 0, r"\x1b[31m red"),
    "a_refused_call": (hexed(("send", "0 refused  \t ")), 1, "calls "),
    "remarks_without_end": (hexed(("flood 100000", "0 remark a")), 3, "remarks on more than it asks"),
    "ends_without_end": (hexed(("flood 100000", "0 ended 1 0")), 3, "remarks on more than it asks"),
    "unread_answers": (hexed(("flood 2500", "0 getppid")) + "rest 100000\n", 3, "doesn't read what it is answered"),
    "a_status": (hexed(("ask", "0 exit 478")), 3, WROTE),
    "a_disposition": (hexed(("ask", "0 action 2 3 0 0 0")), 3, WROTE),
    "a_process_descriptor": (hexed(("ask", "0 undescribed 1000")), 3, WROTE),
    "a_timer_back_in_time": (hexed(("ask", "0 timer 0 0 1 -1"), ("ask", "0 pause")), 3, WROTE),
    "a_signal_of_a_timer": (hexed(("ask", "0 timer 1 99 1 1")), 3, WROTE),
    "no_event": (hexed(("ask", "0 news"), ("ask", "0 news")), 0, ""),
    "everybody_is_killed": (hexed(("ask", "0 exec"), ("ask", f"0 hello {ALL} {ALL} 0 0"), ("ask", "0 exec"), ("ask", "0 foreign 0 0"),
        ("ask", "0 kill 1000 9")), 1, "the first process was killed"),
    "a_number_of_nobody": (hexed(("ask", "0 exec"), ("ask", "0 hello 0 0 0 0"), ("ask", "0 getppid")), 0, ""),
    "no_hello": (hexed(("ask", "0 exec"), ("ask", "0 getppid")), 3, BEGINS),
    "to_the_server": (hexed(("control", "x")), 3, OTHER),
    "nothing_to_the_server": (hexed(("control", "")), 3, OTHER),
    "more_to_the_server": (hexed(("control_later 100000", "swept more")) + "rest 500\n", 3, OTHER),
    "the_first_word_of_the_server": (hexed(("control", "x")) + "control_end 0\n", 3, OTHER),
    "unread_orders": (hexed(("control", "ready"), ("control_on 1000", "swept more")), 3, OTHER),
    "answers_without_end": (
        hexed(("control", "ready"), ("control_answers 50100", "swept more")) + "control_end 0\n", 3, OTHER,
    ),
    "an_outsider_for_the_server": (hexed(("control_outside", "ready")) + "control_end 0\n", 3, OTHER),
    "an_outsider_says_hello": (hexed(("ask", "0 exec"), ("outside", "0 hello 0 0 0 0")), 3, BEGINS),
    "an_answer_of_the_server": (hexed(("control_later 1", "swept 1:0 more")), 3, OTHER),
    "a_closed_socket": ("close\ncall 0\n", 1, "has ended, or closed its socket"),
}  # fmt: skip

_WRITTEN = {  # what the runtime never says
    "a_nul": b"0 getppid\0 1",
    "no_place": b" getppid",
    "an_empty_name": b"0  5",
    "behind_the_numbers": b"0 call 20 x",
    "no_digits": b"0 call ",
    "again_without_a_word": b"0 again  5",
    "again_without_a_number": b"0 again read",
    "again_with_another_word": b"0 again re_ad 5",
    "behind_again": b"0 again poll 1 2 x",
    "enter_without_a_word": b"0 enter 3  5",
    "enter_without_a_code": b"0 enter read 5",
    "enter_without_a_number": b"0 enter 3 read",
    "behind_enter": b"0 enter 3 read 5 x",
    "behind_handled": b"0 handled x",
    "a_remark_of_two_lines": b"0 remark a\nb",
    "a_remark_without_text": b"0 remark ",
    "a_remark_without_a_space": b"0 remark: a",
}
_NOBODY = (-1, 0, 999, 2000, 2**31, 2**32 + 1000, 2**63 - 1)
_ABOUT = (
    "stat %d 0",
    "watch %d 1",
    "unwatch %d",
    "group 207 %d",
    "join %d 0",
    "thr_kill %d 28",
    "cancel %d",
    "memory %d 1",
    "thread %d",
)
_NO_SIGNALS = (32, 33, 128, 129, 2**31 - 1, -1, -(2**31))
_SENDING = ("kill 1000 %d", "kill 0 %d", "thr_kill 100000 %d", "fault %d 1 0", "action %d 2 0 0 0", "count %d 1")
_ATTACHED = ("child", "ask ptrace 10 $C 0", "ask wait $C 2")
CASES |= {name: (hexed(("send", text)), 3, f"{WROTE} '{text.decode()[:7]}") for name, text in _WRITTEN.items()} | {
    "an_end_and_more": (hexed(("send", "0 ended 1 0 x")), 3, f"{WROTE} '1 0 x'"),
    "a_call_within_a_call": (hexed(*[("ask", "0 enter 3 read 0")] * 2), 3, WROTE),
    "handled_without_a_handler": (hexed(("ask", "0 handled")), 3, BEGINS),
    "an_answer_of_registers": (answered(("send", "0 at x")), 3, "has written '0 at x'"),
    "an_answer_with_a_nul": (answered(("send", b"0 at 5\0")), 3, "has written '0 at 5"),
    "an_answer_of_one_word": (answered(("send", "at")), 3, WROTE),
    "remarks_before_an_answer": (answered(("flood 100000000", "0 remark a")), 3, "doesn't answer"),
    "a_place_of_a_thread": (timely("ask stat 1000 1000000", "ask stat 1000 -1"), 0, ""),
    "numbers_of_nobody": (timely(*(f"ask {about % number}" for number in _NOBODY for about in _ABOUT)), 0, ""),
    "signals_of_no_number": (timely(*(f"ask {how % number}" for number in _NO_SIGNALS for how in _SENDING)), 0, ""),
    "a_mask_set_oddly": (timely("ask mask 4 0", "ask mask -1 0"), 0, ""),
    "time_without_end": (timely("ask clock", f"ask sleep {2**63 - 1}", "ask clock"), 0, ""),
    "requests_of_no_number": (timely(*(f"ask ptrace {number} 1000 0" for number in (27, -1, 1000000))), 0, ""),
    "signals_that_are_passed_on": (timely(*_ATTACHED, *(f"ask ptrace 7 $C {number}" for number in (33, -1, 2**31 - 1))), 0, ""),
    "memory_of_a_wider_number": (timely(*_ATTACHED, f"ask memory {2**32 + 1001} 1"), 0, ""),
    "much_of_the_server": (hexed(("control", "ready"), ("control", "swept" + " 1:0" * 1021 + " 111:00" + " 1:0" * 9)), 3, OTHER),
    "an_early_answer": (hexed(("control", "ready"), ("control", "xxxxx")), 3, OTHER),
    "an_early_answer_and_more": (hexed(("control", "ready"), ("control", "swept x"), ("control", "swept")), 3, OTHER),
}
