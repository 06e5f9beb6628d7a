"""The tables of the keys of steps and rules: the parser's, and those of its definitions and proofs."""

from __future__ import annotations

import textwrap

from .tables import Format, NamedKey, wrapped

# what a value comes to by its kind: the parser's function, and the definition
ATOMS = {
    "user": ("user_in", "user_in"),
    "word": ("word", "word"),
    "integer": ("integer", "integer"),
    "op": ("op_in", "name_in op_named"),
    "act": ("act_in", "name_in act_named"),
    "call": ("call_in", "name_in call_named"),
    "request": ("request_in", "name_in request_named"),
    "action": ("disposition_in", "name_in disposition_named"),
}


def rows(items: list[str]) -> str:
    """A list of a definition, over several lines."""
    links = [f"({items[0]})", *(f" ∷ ({item})" for item in items[1:]), " ∷ [])"]
    return "\n".join(wrapped(links, 122, "    (", "    "))


def constants(form: Format) -> str:
    """The sets of one key, in crates/scenario_text/src/keys.rt"""
    names = [key.name.upper() for key in form.keys] + ["OTHER"]
    return "".join(
        f"    pub(crate) const {name}: Keys = Keys({number});\n\n"
        for name, number in [("NONE", 0), *((name, 1 << bit) for bit, name in enumerate(names))]
    )


def variants(form: Format) -> str:
    return "".join(f"    {key.variant},\n" for key in form.keys)


def names(form: Format) -> str:
    """The arms of `key_named`, in crates/scenario_text/src/keys.rt: by the length of the name, and then by the name."""
    arms = []
    for length in sorted({len(key.name) for key in form.keys}):
        rows = [f'            "{key.name}" => Some(Key::{key.variant}),\n' for key in form.keys if len(key.name) == length]
        arms.append(f"        {length} => match text {{\n{''.join(rows)}            _ => None,\n        }},\n")
    return "".join(arms)


def written(form: Format) -> str:
    """The arms of `written`, in the same file: a name, and 16 bytes that begin with it as texts have it"""
    arms = [(key, f'\\"{key.name}\\":' + " " * (13 - len(key.name))) for key in form.keys]
    return "".join(f'        Key::{key.variant} => ("{key.name}", b"{text}"),\n' for key, text in arms)


def sets(form: Format) -> str:
    return "".join(f"        Key::{key.variant} => Keys::{key.name.upper()},\n" for key in form.keys)


def name_rows(form: Format) -> str:
    """The rows of `key_named`, in crates/scenario_text/specs/Keys.antt"""
    table = rows([f'codes "{key.name}", key.{key.variant}' for key in form.keys])
    return f"abbrev pub key_rows : List (List ℕ × Key)\nkey_rows =\n{table}\n\n"


def set_rows(form: Format) -> str:
    return (
        "abbrev pub key_set : Key → Keys\n"
        + "".join(f"key_set key.{key.variant} = keys.{key.name.upper()}\n" for key in form.keys)
        + "\n"
    )


def places(form: Format) -> str:
    """The place of each key's bit, and the keys by their places, in crates/scenario_text/proofs/KeySets.antt"""
    keys = [f"key.{key.variant}" for key in form.keys]
    place = "".join(f"place (Some {key}) = {number}\n" for number, key in enumerate(keys))
    table = textwrap.fill(" ∷ ".join([*keys, "[]"]), 116, initial_indent="    ", subsequent_indent="    ")
    return f"abbrev place : Option Key → ℕ\n{place}place None = {len(keys)}\n\nabbrev keys : List Key\nkeys =\n{table}\n\n"


def atoms(form: Format) -> list[NamedKey]:
    return [key for key in form.keys if key.kind in ATOMS]


def settings(form: Format) -> str:
    """What each key sets, in crates/scenario_text/src/members.rt"""
    return "".join(f"        Key::{key.variant} => fields.{key.name} = {ATOMS[key.kind][0]}(atom),\n" for key in atoms(form))


def set_definition(form: Format) -> str:
    """The same in crates/scenario_text/specs/Streams.antt"""

    def field(key: NamedKey) -> str:
        return "«data»" if key.name == "data" else key.name

    settings_of = [
        f"with_atom key.{key.variant} a f = record f {{ {field(key)} = {ATOMS[key.kind][1]} a }}\n" for key in atoms(form)
    ]
    return "abbrev pub with_atom : Key → Atom → Fields → Fields\n" + "".join(settings_of) + "with_atom k a f = f\n\n"


def facts(form: Format, lemma: str) -> str:
    """The facts of all rows, and that a text is the name of none."""
    each = "".join(f'({lemma} (codes "{key.name}"), ' for key in form.keys) + "tt" + ")" * len(form.keys)
    tests = ", ".join("h" + ".1" * number + ".0" for number in range(len(form.keys)))
    return f"      {each}\n      (λ h. {lemma} k ∙ rw ({tests}) refl)\n"


def field_facts(form: Format) -> str:
    return facts(form, "put_fields")


def rule_facts(form: Format) -> str:
    return facts(form, "put_rule")
