#!/usr/bin/env python3
"""Writes a crate that exports look-ups and primitives of crate `context` under C names: each a call of the proved function, with what that one requires.
A look-up is a method of `View`, which the exported function makes of the words and the layout.
Arguments: the repository's folder, and the folder of a copy of it to which the crate is added."""
import pathlib
import re
import sys

CRATE = "primitives"
# The one place that names what is measured. A function may stand in any module of crate `context`, or be a method of its `View`.
NAMES = [
    "find", "home_of", "row_length", "first_of", "next_of", "last_of", "nth_of", "number_of", "live_count", "nth_live", "flags_of", "type_of", "room_for",
    "birth_use", "end_use", "move_use", "birth_op", "end_operation", "birth_block", "end_block", "birth_region", "end_region", "birth_value", "end_value",
    "link_front", "link_back", "link_after", "link_before", "unlink", "move_region",
]
# An enum does not cross: each function that takes one is exported once for each of these, under its own name.
CHOICES = {
    "find": ["Kind::Operation", "Kind::Block", "Kind::Value", "Kind::Use"], "number_of": ["Kind::Value"], "live_count": ["Kind::Operation"],
    "nth_live": ["Kind::Use"], "room_for": ["Kind::Use"],
    "home_of": ["Family::UseSets", "Family::Operations"], "row_length": ["Family::Slots"], "first_of": ["Family::UseSets"],
    "next_of": ["Family::Operations"], "last_of": ["Family::Operations"], "nth_of": ["Family::Slots"],
    "link_front": ["Member::Operation"], "link_back": ["Member::Operation"], "link_after": ["Member::Operation"],
    "link_before": ["Member::Operation"], "unlink": ["Member::Operation"],
}
ENUMS = {"Kind", "Family", "Member"}
# Nor does an option, or a refusal: a place, and a number that is none; a code, which is 0 for none.
RESULTS = {
    "Option<usize>": ("usize", "match r {\n        Some(p) => p,\n        None => 4294967295,\n    }"),
    "Result<(), Refusal>": ("u32", "match r {\n        Ok(_) => 0,\n        Err(refusal) => u32::from(refusal),\n    }"),
}


def heads(text):
    """Each public function or method: indent, name, parameters, result and what it requires, clause by clause."""
    for m in re.finditer(r"^( *)pub fn (\w+)\(([^)]*)\)(?: -> ([^\n]+))?\n((?:\1    .*\n)*)\1\{", text, re.M):
        lines = [line.removeprefix(m[1]) for line in m[5].splitlines(True)]
        clauses = re.findall(r"^    \w.*\n(?:     .*\n|    [^\w ].*\n)*", "".join(lines), re.M)
        yield m[1], m[2], m[3], m[4], [c.rstrip("\n") for c in clauses if c.strip().startswith("requires")]


def of_words(parameters, requires):
    """The parameters and the clauses of a method of `View` as those of a function of the words and the layout."""
    told = [re.sub(r"^    requires \{", "    requires asked {", c.replace("self.now.words.now", "m.now").replace("self.now.layout", "l")) for c in requires]
    return parameters.replace("&self", "m: &[u32], l: Layout"), ["    requires sound_store { SoundStore l m.now }", *told]


def merged(imports):
    """The lines `ghost use` of several files as one line for each module."""
    names = {}
    for line in imports:
        module, inside = re.fullmatch(r"ghost use (\S+)\.\{(.*)\};", line).groups()
        names.setdefault(module, {}).update(dict.fromkeys(inside.split(", ")))
    return [f"ghost use {module}.{{{', '.join(inside)}}};" for module, inside in names.items()]


def wrapper(path, name, parameters, result, requires, choice=None):
    method = parameters.startswith("&self")
    if method:
        parameters, requires = of_words(parameters, requires)
    kept, passed, clauses = [], [], requires
    for parameter in (p.strip() for p in parameters.split(",") if p.strip()):
        word, kind = (part.strip() for part in parameter.split(":", 1))
        if kind in ENUMS:
            passed.append(choice)
            clauses = [re.sub(rf"\b{word}\b", choice.replace("::", "."), clause) for clause in clauses]
        else:
            kept.append(parameter)
            passed.append(word)
    call = f"View {{ words: m, layout: l }}.{name}({', '.join(passed[2:])})" if method else f"{path}::{name}({', '.join(passed)})"
    body = f"    {call}" if result else f"    {call};"
    if result in RESULTS:
        body = f"    let r = {call};\n    {RESULTS[result][1]}"
        result = RESULTS[result][0]
    arrow = f" -> {result}" if result else ""
    tail = re.sub("[A-Z]", lambda m: "_" + m[0].lower(), choice.split("::")[1]) if choice else ""
    lines = [f'#[unsafe(no_mangle)]\npub extern "C" fn primitive_{name}{tail}({", ".join(kept)}){arrow}', *clauses, "{", body, "}"]
    return "\n".join(lines)


def main(repository, copy):
    uses, wrappers = [], {}
    for file in sorted((repository / "crates/context/src").rglob("*.rt")):
        text = file.read_text()
        stems = [] if file.stem == "lib" else [file.stem]
        for indent, name, parameters, result, requires in heads(text):
            if name in NAMES and (not indent or file.stem == "view"):
                path, flat = "::".join(["context", *stems]), " ".join(parameters.split())
                wrappers[name] = "\n\n".join(wrapper(path, name, flat, result, requires, choice) for choice in CHOICES.get(name, [None]))
                uses += [line for line in text.splitlines() if line.startswith("ghost use")]
    missing = [name for name in NAMES if name not in wrappers]
    if missing:
        sys.exit(f"primitives.py: not found in crate context: {missing}")
    head = ["// Look-ups and primitives under C names, to be timed.", "#![tactic(auto)]", "", *merged(uses), "", "use context::view::View;", "use context::{Family, Kind, Layout};", "use edit::{Member, Refusal};", ""]
    source = copy / "crates" / CRATE / "src"
    source.mkdir(parents=True, exist_ok=True)
    (source / "lib.rt").write_text("\n".join(head) + "\n" + "\n\n".join(wrappers.values()) + "\n")
    listed = (copy / "crates.txt").read_text()
    needs = next(line for line in listed.splitlines() if line.startswith("context:")).split(":")[1]
    with open(copy / "crates.txt", "a") as crates:
        crates.write(f"{CRATE} staticlib: context{needs}\n")


main(pathlib.Path(sys.argv[1]), pathlib.Path(sys.argv[2]))
