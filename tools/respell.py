#!/usr/bin/env python3
"""Brings the repository's own names in specs/ and proofs/, and in the clauses that cite them, to one spelling: words in snake case, types in camel case.

usage: tools/respell.py [ROOT] [--list]      run once, after the toolchain's own upgrade script

A name is the repository's own if an .antt file of specs/ or proofs/ defines it: a definition, a lemma, a record's field, a constructor, or a local name;
or if a line that imports it gives it there by 'as'.
Names of the library, and those that the check makes (goals, labels of clauses), are left as they are. Functions, strings and outputs are not touched.
"""

import os
import re
import sys

WORD = re.compile(r"(?<![\w'·.◌])(?:[A-Za-z_][\w']*(?:-[\w']+)*)|(?<=\.)[A-Za-z_][\w']*(?:-[\w']+)*")
HEAD = re.compile(r"^\s*(?:(?:abbrev|unfoldable|pub|record|data)\s+)*([A-Za-z][\w']*(?:-[\w']+)*)\s*(?:[({][^:]*:.*)?(?::\s*(\S*)|where)")
LET = re.compile(r"\blet ([A-Za-z][\w']*(?:-[\w']+)*)")
BOUND = re.compile(r"[({]([A-Za-z][\w' -]*?) :")
ALIAS = re.compile(r" as ([A-Za-z][\w']*(?:-[\w']+)*)(?=[,};\s])")
LAMBDA = re.compile(r"λ ([A-Za-z][\w' -]*?)\.(?= )")
IMPORT = re.compile(r"^\s*(?:ghost |pub )*use (Rattle\.std|native|lib|mathlib|Prim|borrow)[^{]*\{([^}]*)\}")

# two names that would be one: the lemma, the field or the list of calls gets another
OTHER = {
    "action-in": "action_in_sends",
    "adds-up": "totals_add_up",
    "ended-for": "ended_for_each",
    "finished-step": "finished_step_is",
    "hold-worth": "hold_worth_one",
    "loaded-with": "loaded_with_few",
    "owner-worth": "owner_worth_one",
    "polled-turn": "polled_turn_kept",
    "procedure-by": "procedure_by_owner",
    "run-commands": "run_commands_counted",
    "run-worth": "run_worth_one",
    "sampled-by": "sampled_by_kept",
    "seat-abandoned": "seat_abandoned_seated",
    "seat-received": "seat_received_seated",
    "sent-by": "sent_by_each",
    "stepped-in": "stepped_in_each",
    "stoppedWhileSent": "calls_stopped_while_sent",
    "trigger-taken": "trigger_taken_kept",
    "triggered-by": "triggered_by_kept",
}


def texts(root, ends):
    for folder, dirs, files in os.walk(os.path.join(root, "crates")):
        dirs[:] = sorted(d for d in dirs if d not in ("out", ".git"))
        for name in sorted(files):
            if name.endswith(ends):
                yield os.path.join(folder, name)


def code(line):
    at = line.find("--")
    return line if at < 0 else line[:at]


def plain(name):
    if name[0].isupper():
        return "-" not in name and not re.search(r"[a-z]_[a-z]", name)
    return "-" not in name and not re.search(r"[a-z0-9'][A-Z]", name)


def spelled(name):
    if name in OTHER:
        return OTHER[name]
    if name[0].isupper():
        camel = "-".join(part[:1].upper() + part[1:] for part in re.split(r"-|(?<=[a-z])_(?=[a-z])", name))
        return re.sub(r"(?<=[0-9])-(?=[0-9])", "_", camel).replace("-", "")
    return re.sub(r"(?<=[a-z0-9'])([A-Z])", r"_\1", name.replace("-", "_")).lower()


def own(root):
    names, library = set(), set()
    for path in texts(root, (".antt",)):
        with open(path, encoding="utf-8") as f:
            for line in f:
                line = code(line)
                m = IMPORT.match(line)
                if m:
                    library.update(w.split(" as ")[0].strip() for w in m.group(2).split(","))
                if re.match(r"\s*(pub )?use ", line):
                    continue
                m = HEAD.match(line)
                if m and not (m.group(2) or "").startswith(("goal.", "need.", "given.")):
                    names.add(m.group(1))
                names.update(LET.findall(line))
                for found in BOUND.findall(line) + LAMBDA.findall(line):
                    names.update(found.split())
    for path in texts(root, (".antt", ".rt")):
        with open(path, encoding="utf-8") as f:
            for line in f:
                if re.match(r"\s*(ghost |pub )*use Rattle", line):
                    names.update(ALIAS.findall(line))
    return {n for n in names - library if not plain(n)}


def recursion(line):
    """The library's All by recursion under its own name: its plain All goes by index now, and nothing may have that name but it."""
    if re.match(r"\s*(ghost |pub )*use ", line):
        return line.replace("AllByRecursion as All}", "AllByRecursion}")
    text = code(line)
    return re.sub(r"(?<![\w'.-])All(?![\w'-])", "AllByRecursion", text) + line[len(text):]


def main():
    words = [a for a in sys.argv[1:] if a != "--list"]
    root = words[0] if words else "."
    names = own(root)
    if "--list" in sys.argv:
        for n in sorted(names):
            print(n, spelled(n))
        return
    for path in texts(root, (".antt", ".rt")):
        with open(path, encoding="utf-8") as f:
            text = f.read()
        new = WORD.sub(lambda m: spelled(m.group(0)) if m.group(0) in names else m.group(0), text)
        if "AllByRecursion as All}" in new:
            new = "\n".join(recursion(line) for line in new.split("\n"))
        if new != text:
            with open(path, "w", encoding="utf-8") as f:
                f.write(new)


main()
