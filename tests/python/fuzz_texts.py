"""Hostile texts: scenarios and lines with wrong keys, values, numbers, nesting and bytes."""

import copy
import json
import random
from typing import Any

RAW = (
    '-0', '1.0', '1e3', '1E400', '-1e999', '1e-400', '0.0', '01', '+1', '.5', '1.', '0x10', 'NaN', 'Infinity', 'nul',
    '9223372036854775807', '9223372036854775808', '-9223372036854775808', '-9223372036854775809', '4294967296', '-1',
    '18446744073709551616', '1' + '0' * 308, '1' + '0' * 309, '9' * 5000, '1' * 25, 'true', 'null', '""', '[]', '{}',
    '"\\ud800"', '"\\udc00\\ud800"', '"\\ud83d\\ude00"', '"\\u0000"', '"\\x"', '"\t"', '"a', "'a'", '[1,]', '{"a":1,}',
    '65', '1000', '1065', '256', '32', '"PT_ATTACH"', '"spawn"', '"PTRACE_SYSCALL"', '"PL_FLAG_SCE"', '"\\u0073pawn"',
    '[null]', '[0]', '[31,31]', '[32]', '["x"]', '[["x"]]', '[{}]', '[{"decision":"leave","pass":1}]',
    '[' + ','.join(['{"decision":"leave"}'] * 16) + ']', '[' + ','.join(['0'] * 17) + ']', '/* */1', '1 2',
)  # fmt: skip
KEYS = (
    'user', 'op', 'caller', 'request', 'target', 'data', 'mask', 'which', 'options', 'signal', 'action', 'rules', 'lwp',
    'act', 'set', 'call', 'code', 'flags', 'decision', 'pass', 'steps', 'kill_on_debugger_exit', '', 'User', '$schema',
)  # fmt: skip
BYTES = (b'\xff', b'\xc0\x80', b'\xed\xa0\x80', b'\xef\xbb\xbf', b'\x00', b'\x0c', b'\xc2\xa0', b'"', b'\\', b'{', b']',
         b',', b':', b'\r\n', b'\t', b'\xf0\x9f\x98\x80', b'\xf4\x90\x80\x80', b'\x7f', b'\x1f', b'-', b'e')  # fmt: skip
MARK = "a value by chance"


def objects(value: Any) -> list[dict[str, Any]]:
    """All objects in a value."""
    if isinstance(value, dict):
        return [value, *(found for item in value.values() for found in objects(item))]
    if isinstance(value, list):
        return [found for item in value for found in objects(item)]
    return []


def arrays(value: Any) -> list[list[Any]]:
    """All arrays in a value."""
    if isinstance(value, dict):
        return [found for item in value.values() for found in arrays(item)]
    if isinstance(value, list):
        return [value, *(found for item in value for found in arrays(item))]
    return []


def raw_value(chance: random.Random) -> str:
    if chance.random() < 0.1:
        depth = chance.choice((1, 3, 120, 121, 122, 123, 124, 125, 126, 127, 128, 129, 500))
        opening, closing = chance.choice((("[", "]"), ('{"a":', "}")))
        return opening * depth + chance.choice(("1", "", '"]"', "{}")) + closing * depth
    return chance.choice(RAW)


def change_value(chance: random.Random, value: Any) -> None:
    """Changes one object or array somewhere in the value; MARK is replaced by a text later."""
    if chance.random() < 0.15 and (found := arrays(value)):
        array = chance.choice(found)
        array.insert(chance.randint(0, len(array)), MARK)
        return
    target = chance.choice(objects(value))
    key = chance.choice([*target, *target, chance.choice(KEYS)])
    match chance.randrange(5):
        case 0:
            target.pop(key, None)
        case 1:
            target[chance.choice(KEYS)] = target.get(key, 1)
        case 2:
            target[key] = copy.deepcopy(chance.choice(list(chance.choice(objects(value)).values()) or [0]))
        case _:
            target[key] = MARK


def change_bytes(chance: random.Random, text: bytes) -> bytes:
    at = chance.randint(0, len(text))
    match chance.randrange(5):
        case 0:
            return text[:at]
        case 1:
            return text[:at] + chance.choice(BYTES) + text[at:]
        case 2:
            return text[:at] + text[at + chance.randint(1, 3) :]
        case 3:
            return text[:at] + bytes([chance.randrange(256)]) + text[at + 1 :]
    end = min(len(text), at + chance.randint(1, 60))
    return text[:end] + text[at:end] + text[end:]


def hostile(chance: random.Random, value: Any) -> bytes:
    """The text of a value with one to three faults, or by luck with none."""
    value = copy.deepcopy(value)
    for _ in range(chance.choice((0, 1, 1, 1, 2, 3))):
        change_value(chance, value)
    text = json.dumps(value, separators=chance.choice(((",", ":"), (", ", " : "))))
    while (mark := f'"{MARK}"') in text:
        text = text.replace(mark, raw_value(chance), 1)
    if chance.random() < 0.1:
        text = text.replace("{", '{"%s":%s,' % (chance.choice(KEYS), raw_value(chance)), 1)
    data = text.encode()
    for _ in range(chance.choice((0, 0, 0, 0, 1, 2))):
        data = change_bytes(chance, data)
    return data
