"""What a run needs of typing, which takes as long to import as all of this client. Checkers of types see typing's own."""

from __future__ import annotations

from collections import namedtuple

TYPE_CHECKING = False
if TYPE_CHECKING:
    from typing import Any


class _Kind(type):
    def __new__(kind, name: str, bases: tuple[type, ...], namespace: dict[str, Any]) -> Any:
        if not bases:
            return super().__new__(kind, name, bases, namespace)
        annotations = namespace.get("__annotations__", {})
        defaults = [namespace[field] for field in annotations if field in namespace]
        made = namedtuple(name, annotations, defaults=defaults, module=namespace["__module__"])  # type: ignore[misc]
        made.__annotations__ = annotations
        for key, value in namespace.items():
            if key not in annotations and key != "__module__":
                setattr(made, key, value)
        return made


class NamedTuple(metaclass=_Kind):
    """The base of a class whose annotations, which are texts, are the fields of its tuples."""


def overload(function: object) -> object:
    return function
