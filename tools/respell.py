#!/usr/bin/env python3
"""Brings the repository's own definitions and lemmas to snake case, after port.py.

usage: tools/respell.py [ROOT]

Run it once, right after port.py. A name is a definition, lemma, field or constructor that a file of specs/ or a lemma
file of proofs/ declares; types, modules and constructors with a capital keep it. It renames in .antt and .rt files,
in must-fail edits, and between backticks in README.md, docs/ and comments. Functions of src/, strings, inputs and
outputs keep their names. It stops where two names would fall together and FALLS_TOGETHER has no other name for one.
"""

import collections
import os
import re
import sys

WORD = r"[^\s(){}.;,@\"«»\[\]\\`]+"
TOKEN = re.compile(r"(?<![^\s(){}.;,@\"«»\[\]\\`λ])" + WORD)
SIGNATURE = re.compile(r"\s*(?:(?:abbrev|unfoldable|pub)\s+)*(" + WORD + r")\s*:\s")
CAMEL = re.compile(r"[a-z][\w'-]*[A-Z]")

# A lemma that would have a definition's name gets `_lem`; of two definitions one gets a plainer name.
FALLS_TOGETHER = {
    "answer-tag": "answer_tag_lem",
    "arguments-begin": "arguments_begin_lem",
    "behind-object": "behind_object_lem",
    "board-at": "board_at_lem",
    "component-at": "component_at_lem",
    "enter-at": "enter_at_lem",
    "entry_found": "entry_found_lem",
    "found-at": "found_at_lem",
    "front-record": "front_record_lem",
    "in-range": "is_in_range",
    "integer-rest": "integer_rest_lem",
    "is-linkId": "is_link_id_lem",
    "last-board": "last_board_lem",
    "leg-facility": "leg_facility_lem",
    "length-filter-map": "length_filter_of_map",
    "no-octets": "no_octets_lem",
    "number-found": "number_found_lem",
    "object-rest": "object_rest_lem",
    "of-kind": "of_kind_lem",
    "on-board": "on_board_lem",
    "one-or-two": "one_or_two_lem",
    "one-record": "one_record_lem",
    "opens-leg": "opens_leg_lem",
    "partner-by": "partner_by_lem",
    "partner-in": "partner_in_lem",
    "party-found": "party_found_lem",
    "passedOn": "passed_on_record",
    "row-entry": "row_entry_lem",
    "same-octets": "same_octets_lem",
    "sound-entries": "sound_entries_lem",
    "well-formed": "well_formed_lem",
    "request-In": "request_In",
}
# These stand side by side, each in files that never see the other.
APART = {"in_order", "no_call", "link_ids"}


def files(root, endings, tops):
    for top in tops:
        for folder, folders, names in os.walk(os.path.join(root, top)):
            folders[:] = sorted(f for f in folders if f not in ("out", "target"))
            for name in sorted(names):
                if name.endswith(endings):
                    yield os.path.join(folder, name)


def read(path):
    with open(path, encoding="utf-8", newline="") as f:
        return f.read()


def declared(root):
    """Every name that specs/ and the lemma files declare."""
    found = set()
    for path in files(root, (".antt",), ["crates"]):
        if os.path.basename(path) == "Proof.antt":
            continue
        for line in read(path).split("\n"):
            m = SIGNATURE.match(line.split("--")[0] + " ")
            if m:
                found.add(m[1])
    return found


def snake(name):
    return re.sub(r"(?<=[a-z0-9'])[A-Z]", lambda m: "_" + m[0].lower(), name).replace("-", "_")


def table(root):
    names = declared(root)
    turned = {n: snake(n) for n in names if CAMEL.match(n) or ("-" in n and not re.search("[A-Z]", n))}
    turned |= {n: t for n, t in FALLS_TOGETHER.items() if n in names}
    whose = collections.defaultdict(set)
    for old, new in turned.items():
        whose[new].add(old)
    for old in names - set(turned):
        whose[old].add(old)
    clash = {new: olds for new, olds in whose.items() if len(olds) > 1 and new not in APART}
    if clash:
        sys.exit(f"respell: these fall together: {clash}")
    return turned


def respelled(text, turned):
    def one(m):
        if m[0] == "well-formed" and m.string[m.start() - 1 : m.start()] == ".":
            return m[0]  # a field that Rattle makes
        return turned.get(m[0], m[0])

    return TOKEN.sub(one, text)


def between_backticks(text, turned):
    return re.sub(r"`[^`\n]*`", lambda m: respelled(m[0], turned), text)


def in_docs(root, turned):
    """What docs may name: also what port.py had turned; but the examples keep their names."""
    names = {turned.get(n, n) for n in declared(root)} | set(turned.values())
    logs = {os.path.splitext(n)[0] for n in os.listdir(os.path.join(root, "examples"))}

    def one(m):
        new = turned.get(m[0], snake(m[0]))
        return new if new in names and m[0] not in logs and re.match("[a-z]", m[0]) else m[0]

    return lambda text: re.sub(r"`[^`\n]*`", lambda m: TOKEN.sub(one, m[0]), text)


def source(text, turned, comment):
    out = []
    for line in text.split("\n"):
        code, mark, said = line.partition(comment)
        out.append(respelled(code, turned) + mark + between_backticks(said, turned))
    return "\n".join(out)


def main(root):
    turned = table(root)
    docs = in_docs(root, turned)
    changed = 0
    for path in files(root, (".antt", ".rt", ".edit"), ["crates"]):
        text = read(path)
        if path.endswith(".edit"):
            new = respelled(text, turned)
        else:
            new = source(text, turned, "--" if path.endswith(".antt") else "//")
        if new != text:
            changed += 1
            with open(path, "w", encoding="utf-8", newline="") as f:
                f.write(new)
    for path in [os.path.join(root, "README.md"), *files(root, (".md",), ["docs"])]:
        if os.path.basename(path).startswith("PORT"):
            continue
        text = read(path)
        new = docs(text)
        if new != text:
            changed += 1
            with open(path, "w", encoding="utf-8", newline="") as f:
                f.write(new)
    print(f"respell: {len(turned)} names, {changed} files")


if __name__ == "__main__":
    main(sys.argv[1] if len(sys.argv) > 1 else ".")
