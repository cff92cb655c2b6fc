#!/usr/bin/env python3
"""Brings the repository's own names to today's spelling: words in snake case, types in upper camel case.

usage: python3 tools/port_names.py        at the top of the repository, once, after port.py

Which names: what specs/ and proofs/ declare (definitions, lemmas, fields, constructors, local helpers), and in crates/, the must-fail
edits and the pages each mention of them. Names of functions, exported names, strings and what the check generates stay.
A name that begins with a type keeps its dash (`All-append`). It stops, writing nothing, where two names would fall together.
"""

import os
import re
import sys

TOKEN = re.compile(r"[^\s(){}\[\].;,:λ◌\"`]+")
TOKEN_OF_CODE = re.compile(r"[^\s(){}\[\].;,:λ◌\"`&|!<>=+*/]+")
NAME = r"[^\s(){}\[\].;,:λ◌\"`]+"
DECLARED = re.compile(rf"^(\s*)(?:(?:abbrev|unfoldable|opaque|record|data)\s+)?(?:pub\s+)?(?:(?:record|data)\s+)?({NAME}(?: +{NAME})*)(?:\s+[({{][^:]*?:.*?[)}}])*(?:\s+\{{[^:}}]*\}})?\s*:(?:\s|$)")
TYPE = re.compile(rf"^\s*(?:abbrev |unfoldable )?(?:pub )?(?:record|data) (?:pub )?({NAME})|^(?:abbrev |unfoldable )?(?:pub )?({NAME})(?: \{{[^}}]*\}})? :.* Type \d$", re.M)
USE = re.compile(r"^\s*(?:pub )?use (\S+?)\.\{([^}]*)\}", re.M)

# Types whose names were words, and names that would fall together with another. The rules speak of numbers and `places` of places:
# where both have a word, that of `places` says so. A lemma that would have its definition's name ends in `_lem`.
NAMED = {
    "by-rule-start": "ByRuleStart",
    "by-rule-edit": "ByRuleEdit",
    "by-rule-script": "ByRuleScript",
    "is_found": "IsFound",
    "ops-told": "OpsTold",
    "bks-told": "BksTold",
    "a-container": "IsContainerAsked",
    "a-node": "IsNodeAsked",
    "TheBlock": "the_block",
    "block-of": "block_of_op",
    "blockVerdict": "place_block_verdict",
    "regionVerdict": "place_region_verdict",
    "endsWell": "place_ends_well",
    "firstMet": "place_first_met",
    "in_block": "place_in_block",
    "inOp": "place_in_op",
    "inRegion": "place_in_region",
    "leadsTo": "place_leads_to",
    "lostPred": "place_lost_pred",
    "namesBlock": "place_names_block",
    "strayUser": "place_stray_user",
    "tooEarly": "place_too_early",
    "moveRegion": "place_move_region",
    "moveUse": "place_move_use",
    "listAt": "place_list_at",
    "endUses": "place_end_uses",
    "usesAt": "place_uses_at",
    "valuesAt": "place_values_at",
    "ops_of": "ops_among",
    "frontOf": "seq_front_of",
    "insertAt": "seq_insert_at",
    "removeAt": "seq_remove_at",
    "swapOut": "seq_swap_out",
    "last_of": "seq_last_of",
    "count-swapOut": "count_seq_swap_out",
    "heldBy": "is_held_by",
    "kind-of": "record_kind",
    "list-of": "list_of_role",
    "state-of": "rules_state_of",
    "famCode": "family_code",
    "refusalOf": "use_refusal_of",
    "replyAt": "reply_listed",
    "numbersIn": "numbers_among",
    "sortOf": "sort_number",
    "standsIn": "stands_in_list",
    "takenOut": "taken_out_of",
    "valueSet": "value_set_of",
    "cutBy": "place_cut_by",
    "onBlock": "verdict_on_block",
    "onRegion": "verdict_on_region",
}
LEMMAS = """book-birth book-end by_number container-at def-role ends-at erase-by home-number home-of inside-code is-use last_code last-in mark_code
member-at move-code node_in node-of op-kept room-code row-of set-row slot-list use-of""".split()
NAMED.update({n: n.replace("-", "_") for n in ("first-is", "next-is", "uses-told")})
NAMED["value-uses"] = "value_uses_lem"
NAMED.update({n: re.sub("-", "_", n) + "_lem" for n in LEMMAS})
# The same word is something else in these files.
NAMED_IN = {
    "crates/rules/proofs/Tracks.antt": {"uses-told": "UsesTold"},
    "crates/walk/proofs/": {"first-is": "IsFirstTold", "next-is": "IsNextTold", "list-of": "list_of_lem"},
    "crates/walk/proofs/JudgeLaws.antt": {"next-is": "next_is"},
    "crates/context/": {"kind-of": "kind_of_lem"},
    "crates/listing/": {"kind-of": "kind_of_lem"},
    "crates/links/": {"state-of": "state_of_lem", "block-of": "block_of_lem"},
    "crates/uses/": {"block-of": "block_of_lem"},
}


def camel(name):
    return re.sub(r"-([a-zA-Z])", lambda m: m.group(1).upper(), name)


def snake(name):
    if name[0].isupper():
        head, dash, rest = name.partition("-")
        return head + dash + snake(rest) if dash and rest else name
    name = re.sub(r"(?<=[a-z0-9])([A-Z])(?=[a-z]|$|['₀-₉_-])", lambda m: "_" + m.group(1).lower(), name)
    return re.sub(r"(?<=[^\W])-(?=[^\W])", "_", name)


def files(root):
    for folder, dirs, names in os.walk(os.path.join(root, "crates")):
        dirs[:] = sorted(d for d in dirs if d != "out")
        for n in sorted(names):
            if n.endswith((".antt", ".rt", ".edit")) and n != "Proof.antt":
                yield os.path.relpath(os.path.join(folder, n), root)
    for n in ["README.md"] + sorted("docs/" + d for d in os.listdir(os.path.join(root, "docs"))) + ["differential/README.md", "differential/RESULTS.md"]:
        if n.endswith(".md") and os.path.isfile(os.path.join(root, n)):
            yield n


def code(line):
    at = line.find("--")
    return line if at < 0 else line[:at]


def gather(texts):
    own, types, crates = set(), set(), {p.split("/")[1] for p in texts if p.startswith("crates/")}
    outside = {}
    for p, text in texts.items():
        if not p.endswith(".antt"):
            continue
        for line in text.split("\n"):
            m = DECLARED.match(code(line))
            if m and not line.lstrip().startswith(("use ", "let ", "--", "(")):
                own.update(m.group(2).split())
        types.update(m.group(1) or m.group(2) for m in TYPE.finditer(text))
        for m in USE.finditer(text):
            mod = m.group(1).split(".")
            ours = mod[0] == "Rattle" and len(mod) > 1 and mod[1] in crates
            if not ours:
                for n in m.group(2).split(","):
                    outside.setdefault(p, set()).add(n.strip())
    return own, types, outside


def turn_tokens(text, names, typed, token=TOKEN):
    def word(m):
        t = m.group(0)
        return typed.get(t) or names.get(t) or t

    text = re.sub(rf"«({NAME})»", lambda m: names.get(m.group(1), m.group(0)), text)
    return token.sub(word, text)


def turn_code(text, names, typed, strings):
    """Outside comments (where only what stands between backticks is a name) and strings."""
    mark, token = ("//", TOKEN_OF_CODE) if strings else ("--", TOKEN)
    out = []
    for line in text.split("\n"):
        if strings:
            parts = re.split(r'(b?"(?:[^"\\]|\\.)*")', line)
        else:
            parts = [line]
        for i in range(0, len(parts), 2):
            at = parts[i].find(mark)
            if at >= 0 and (at == 0 or parts[i][at - 1].isspace()):
                tail = mark + turn_marked(parts[i][at + 2:], names, typed)
                parts[i] = turn_tokens(parts[i][:at], names, typed, token) + tail
                if i + 1 < len(parts):
                    parts[i:] = [tail if parts[i] == tail else parts[i]] + ["".join(parts[i + 1:])]
                break
            parts[i] = turn_tokens(parts[i], names, typed, token)
        out.append("".join(parts))
    return "\n".join(out)


def turn_marked(text, names, typed):
    return re.sub(r"`[^`\n]+`", lambda m: turn_tokens(m.group(0), names, typed), text)


def turn_edit(text, names, typed):
    rt = re.search(r"^file: .*\.rt$", text, re.M) is not None
    out = []
    for line in text.split("\n"):
        m = re.match(r"^(old|new): (.*)$", line)
        out.append(f"{m.group(1)}: {turn_code(m.group(2), names, typed, rt)}" if m else line)
    return "\n".join(out)


def main():
    root = os.path.realpath(".")
    texts = {}
    for p in files(root):
        with open(os.path.join(root, p), encoding="utf-8") as f:
            texts[p] = f.read()
    own, types, outside = gather(texts)
    names = {n: NAMED.get(n) or (camel(n) if n in types else snake(n)) for n in own}
    names = {a: b for a, b in names.items() if a != b}
    fall = {}
    for a, b in names.items():
        fall.setdefault(b, set()).add(a)
    every = {n for n in own if n not in names} | {n for s in outside.values() for n in s}
    bad = sorted((b, sorted(a | ({b} if b in every else set()))) for b, a in fall.items() if len(a) > 1 or (b in every))
    if bad:
        for b, a in bad:
            print(f"fall together as {b}: {', '.join(a)}")
        return 1
    changed = 0
    for p, text in texts.items():
        here = {a: b for a, b in names.items() if a not in outside.get(p, ()) and not (p.endswith(".rt") and re.fullmatch("[a-z_0-9]+", a))}
        typed = {}
        for start, more in NAMED_IN.items():
            if p.startswith(start):
                typed.update(more)
        if p.endswith(".md"):
            new = turn_marked(text, here, typed)
        elif p.endswith(".edit"):
            new = turn_edit(text, here, typed)
        else:
            new = turn_code(text, here, typed, p.endswith(".rt"))
        if new != text:
            changed += 1
            with open(os.path.join(root, p), "w", encoding="utf-8") as f:
                f.write(new)
    print(f"{len(names)} names, {changed} files")
    return 0


if __name__ == "__main__":
    raise SystemExit(main())
