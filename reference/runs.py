"""Runs of scenarios and of sessions line by line, on the views of all users."""

from collections.abc import Iterable, Iterator

from . import names
from .machine import step
from .printing import as_json, in_words
from .reading import Fault, parse, read_scenario, read_step
from .rows import View, new_view
from .steps import Step

LONGEST_LINE = 65536


class Host:
    """All users' views, and how many steps each user has made."""

    def __init__(self, kills_tracees: bool) -> None:
        users = range(names.FIRST_USER, names.LAST_USER + 1)
        self.views: dict[int, View] = {user: new_view(user, kills_tracees) for user in users}
        self.made = dict.fromkeys(users, 0)

    def line(self, user: int, asked: Step, json: bool) -> str:
        """Makes a step of a user; the line of its reply."""
        self.views[user], reply = step(self.views[user], asked)
        self.made[user] += 1
        number = self.made[user]
        return as_json(user, number, reply) if json else f"{user} {number} {in_words(reply)}"


def run_scenario(data: bytes, json: bool) -> list[tuple[int, str]]:
    """The lines of a scenario's steps, each with its user."""
    scenario = read_scenario(data)
    host = Host(scenario.kills_tracees)
    return [(user, host.line(user, asked, json)) for user, asked in scenario.steps]


def run_lines(lines: Iterable[bytes], kills_tracees: bool, json: bool) -> Iterator[str]:
    """The answer to each line of a session."""
    host = Host(kills_tracees)
    for line in lines:
        line = line.removesuffix(b"\n")
        try:
            if len(line) > LONGEST_LINE:
                raise Fault("TooLong")
            yield host.line(*read_step(parse(line)), json)
        except Fault as fault:
            yield f'{{"refused":"{fault.name}"}}' if json else f"refused {fault.name}"
