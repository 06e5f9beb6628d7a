"""What a call raises besides OSError."""

from __future__ import annotations

TYPE_CHECKING = False
if TYPE_CHECKING:
    from typing import Any


class Held(Exception):
    """The call isn't made: a debugger or job control has the caller (or the LWP at its turn) stopped.

    An LWP is held too while it is suspended, or waits for its vfork's child. The text says which.
    """


class RefusedStep(ValueError):
    """The text that was sent isn't a step. Nothing was done.

    `fault` is its name in docs/FORMAT.md, section 8, `reason` the library's explanation, in words that may change, or "" if
    nobody wants it (`Host`), and `line` what was sent.
    """

    def __init__(self, fault: str, reason: str = "", line: str = "") -> None:
        super().__init__(fault, reason, line)
        self.fault, self.reason, self.line = fault, reason, line

    def __str__(self) -> str:
        text = self.fault if not self.reason else f"{self.fault}: {self.reason}"
        return text if not self.line else f"{text}\n  sent: {self.line}"


class SessionClosed(Exception):
    """The session was closed: `Host.close`, the end of a ``with``, or a step that can't be recorded."""

    def __init__(self) -> None:
        super().__init__("the session is closed")


class SessionBusy(RuntimeError):
    """A signal handler or a ``__del__`` has made a call while its own thread was in another call of the session."""

    def __init__(self) -> None:
        super().__init__("the session is busy: this thread is in a call of it already")


class RecordingFailed(RuntimeError):
    """A step was made and can't be recorded. It is no OSError, since these are the model's answers.

    The session has ended. The recording is that of the steps before. `__cause__` says what the system answered.
    """


def hides_from_pytest(caught: Any) -> bool:
    """Whether pytest's report leaves out the frames of a module with this as ``__tracebackhide__``: not if it may be our fault."""
    return caught is not None and isinstance(caught.value, (OSError, Held, ValueError, TypeError))
