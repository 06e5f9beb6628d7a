"""What fork(2) does to sessions: the child is told of it, and so never uses what is its parent's."""

from __future__ import annotations

import os
import weakref

TYPE_CHECKING = False
if TYPE_CHECKING:
    from typing import Protocol

    class Inherited(Protocol):
        """What a forked child has a copy of."""

        def in_child(self) -> None:
            """Called in the child, which has only the thread that called fork."""


_all: weakref.WeakSet[Inherited] = weakref.WeakSet()


def tell(thing: Inherited) -> None:
    """From now on a forked child calls the thing's `in_child`."""
    _all.add(thing)


def _tell_all() -> None:
    for thing in list(_all):
        thing.in_child()


os.register_at_fork(after_in_child=_tell_all)
