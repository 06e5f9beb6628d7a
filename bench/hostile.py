"""Hostile texts of nearly the most bytes that the program reads."""

MOST_BYTES = 4194304

SPAWN = '{"user":1001,"op":"spawn"}'
RULE = '{"decision":"decline"}'
INSTALL = '{"user":1001,"op":"install","caller":1000,"rules":[' + ",".join([RULE] * 16) + "]}"
# what is before a unit that is written again and again, the unit, what is between two of them, and what is behind
PARTS = {
    "a number of many digits": ('{"steps":[{"user":1001,"op":"spawn","x":', "1", "", "}]}"),
    "a fraction of many digits": ('{"steps":[{"user":1001,"op":0.', "5", "", ',"op":"spawn"}]}'),
    "a text of many escapes": ('{"steps":[{"user":1001,"op":"spawn","x":"', "\\u0041", "", '"}]}'),
    "a text of many escapes, with its key again": ('{"steps":[{"user":1001,"op":"', "\\n", "", '","op":"spawn"}]}'),
    "a text of many surrogate pairs": ('{"steps":[{"user":1001,"op":"spawn","x":"', "\\ud83d\\ude00", "", '"}]}'),
    "keys with escapes": ('{"steps":[{"user":1001,"op":"spawn",', '"\\u0061b":1', ",", "}]}"),
    "a key with escapes again and again": ('{"steps":[{"op":"spawn",', '"\\u0075ser":1001', ",", "}]}"),
    "a key of many bytes": ('{"steps":[{"user":1001,"op":"spawn","', "x", "", '":1}]}'),
    "arrays nested 60 deep": ('{"steps":[{"user":1001,"op":"spawn","x":[', "[" * 60 + "]" * 60, ",", "]}]}"),
    "arrays nested at a key that comes again": ('{"steps":[{"user":1001,"op":[', "[" * 60 + "]" * 60, ",", '],"op":"spawn"}]}'),
    "an array of numbers": ('{"steps":[{"user":1001,"op":"spawn","x":[', "1", ",", "]}]}"),
    "an array of fractions": ('{"steps":[{"user":1001,"op":"spawn","x":[', "1.7976931348623157e308", ",", "]}]}"),
    "an array of arrays": ('{"steps":[{"user":1001,"op":"spawn","x":[', "[]", ",", "]}]}"),
    "an array in place of the steps": ("[", "[]", ",", "]"),
    "an object of objects": ('{"steps":[{"user":1001,"op":"spawn","x":{', '"":{}', ",", "}}]}"),
    "a set of many signals": ('{"steps":[{"user":1001,"op":"turn","lwp":100001,"act":"block","set":[', "2", ",", "]}]}"),
    "flags of many names": (
        '{"steps":[{"user":1001,"op":"install","caller":1000,"rules":[{"decision":"decline","flags":[',
        '"PL_FLAG_SCE"',
        ",",
        "]}]}]}",
    ),
    "too many rules": ('{"steps":[{"user":1001,"op":"install","caller":1000,"rules":[', RULE, ",", "]}]}"),
    "a key again and again": ('{"steps":[{"user":1001,"op":"spawn",', '"x":1', ",", "}]}"),
    "a known key again and again": ('{"steps":[{"op":"spawn",', '"user":1001', ",", "}]}"),
    "many keys of the scenario": ('{"steps":[],', '"x":[[]]', ",", "}"),
    "the steps again and again": ("{", '"steps":[' + SPAWN + "]", ",", "}"),
    "too many steps": ('{"steps":[', SPAWN, ",", "]}"),
    "a step with a flaw at the end": (
        '{"steps":[',
        '{"user":1001,"op":"kill","caller":1000,"which":1001,"signal":15}',
        ",",
        ',{"user":1}]}',
    ),
    "no JSON at the end": ('{"steps":[', '{"user":1001,"op":"kill","caller":1000,"which":1001,"signal":15}', ",", ",]}"),
    "spaces": ('{"steps":[', " ", "", "]}"),
    "lines with a bracket": ('{"steps":[{"user":1001,"op":"spawn","x":[', "[\n]", "\t,\r ", "]}]}"),
    "policies of 16 rules": ('{"steps":[' + SPAWN + ",", INSTALL, ",", "]}"),
}


def text(name: str) -> str:
    front, unit, between, back = PARTS[name]
    units = (MOST_BYTES - len(front) - len(back)) // len(unit + between)
    return front + between.join([unit] * units) + back
