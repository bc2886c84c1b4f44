#!/usr/bin/env python3
"""Tries the wrong edits of crates/NAME/more-edits/: the prover must refuse each.

usage: python3 bench/more_edits.py [--here] NAME..

`rt ci` tries the edits of must-fail/ alone. Run this for a crate before a change of it lands. It works on a copy of the
repository in a new temporary folder, which has the libraries that were made in crates/*/out; others are made there.
With --here it works in the repository itself, over the work that `rt check` kept there, and puts each file back.

Edits of different functions are tried together, by one `rt check --only`: a proof knows nothing of other functions but
their clauses. Where the function of an edit is proved, the whole crate is checked with that edit alone, since a caller
may refuse it. Each edit has a line that says what came of it. The status is 1 where one is not refused, or is bad: it
cannot be applied or compiled, it makes a function that the borrow checker does not cover, or all that is wrong is that
a proof file has names which the edit took away.
"""
import glob
import os
import re
import shutil
import subprocess
import sys
import tempfile

from edit_files import Edit, group, put, read

# what rt says where a proof file has a name that the code no longer gives
NAMES = re.compile(r"has no field|is not in scope|has no `|was not admitted")


def check(folder, texts, functions):
    """The lines that rt prints of these functions, or of the whole crate for none, where files have these texts."""
    only = [word for name in sorted(functions) for word in ("--only", name)]
    was = {file: read(folder, file) for file in texts}
    try:
        put(folder, texts)
        ran = subprocess.run(["rt", "check", "--jobs", "1", *only], cwd=folder, stdout=subprocess.PIPE, stderr=subprocess.STDOUT)
    finally:
        put(folder, was)
    # a line that goes on has a margin
    return re.sub(r"\n +", " ", ran.stdout.decode(errors="replace")).split("\n")


def open_goals(lines):
    """The goals that rt does not prove, by the function; it prints them above the function's own line."""
    goals, found = [], {}
    for line in lines:
        note = re.match(r"note: \S+ it is not proved .*?\(`([^`]+)`\)", line)
        if note:
            goals.append(note[1])
        elif line.startswith("fn "):
            found[line[3:].partition(": ")[0]] = goals
            goals = []
    return found


def refusal(lines, function):
    """What rt does not prove of a function: its clauses and other goals, or what is written by hand for them."""
    # nothing is tried of such a function, nor is what is written by hand for it read
    if any(it.startswith(f"ahead of the check: {function}: the borrow checker does not cover") for it in lines):
        return f"BAD EDIT: the borrow checker does not cover {function}"
    # a closure of F is named fn::F::..
    named = {name.replace("::fn::", "::"): goals for name, goals in open_goals(lines).items()}
    goals = [it for name, its in named.items() if f"{name}::".startswith(f"{function}::") for it in its]
    *above, name = function.split("::")[1:]
    own = re.compile(rf"(?:\./)?proofs/{''.join(f'{it}/' for it in above)}({name}|\+\w+)/\S+: error: (.*)")
    errors = [it[2] for it in (own.match(line.replace("/fn/", "/")) for line in lines) if it]
    real = [it for it in errors if not NAMES.search(it)]
    if goals:
        # an answer whose goal got another name leaves a goal open that is true
        doubt = "" if len(real) == len(errors) else " (LOOK: names are unknown in its proof file too)"
        return f"refused by {function}#{', '.join(goals)}{doubt}"
    if real:
        return f"refused by {function}: {real[0][:120]}"
    return f"BAD EDIT: only names are unknown in a proof file of {function}: {errors[0]}" if errors else ""


def first_refusal(lines, functions):
    """What rt does not prove of these functions, or else what is bad in their proof files."""
    found = sorted((it for it in (refusal(lines, name) for name in sorted(functions)) if it), reverse=True)
    return found[0] if found else ""


def unread(lines):
    """What is said of an edit where rt came to no answer: it does not compile, or else rt did not end."""
    errors = [it for it in lines if re.match(r"\S+:\d+:\d+: error", it)]
    return f"BAD EDIT: {errors[0]}" if errors else f"NOT TRIED: {' '.join(lines).strip()[-120:]}"


def try_whole(edit):
    """What a check of the whole crate says of an edit."""
    lines = check(edit.folder, edit.apply({}), [])
    if any(it.startswith("logic=proved") for it in lines):
        return "NOT REFUSED"
    names = [it[3:].partition(": ")[0] for it in lines if it.startswith("fn ") and not it.endswith(": proved")]
    return first_refusal(lines, names) or unread(lines)


def try_together(edits):
    """What came of each of these edits, which change different functions."""
    if not edits[0].functions:
        return {edits[0].name: try_whole(edits[0])}
    texts = {}
    for edit in edits:
        texts = edit.apply(texts)
    lines = check(edits[0].folder, texts, set().union(*(it.functions for it in edits)))
    is_read = any(it.startswith("only=") for it in lines)
    if not is_read and len(edits) > 1:
        half = len(edits) // 2
        return try_together(edits[:half]) | try_together(edits[half:])
    found = {}
    for edit in edits:
        what = first_refusal(lines, edit.functions) if is_read else unread(lines)
        if len(edits) > 1 and not what.startswith("refused"):
            found.update(try_together([edit]))
        else:
            found[edit.name] = what or try_whole(edit)
    return found


def try_crate(folder):
    """Tries all edits of a crate, and says of each what came of it. Gives these words."""
    name = os.path.basename(folder)
    paths = sorted(glob.glob(os.path.join(folder, "more-edits", "*.edit")))
    edits = [Edit(folder, os.path.basename(it)) for it in paths]
    found = {it.name: "BAD EDIT: an old text is not there exactly once" for it in edits if it.apply({}) is None}
    for members in group([it for it in edits if it.name not in found]):
        found.update(try_together(members))
    for edit, what in sorted(found.items()):
        print(f"{name}/{edit}: {what}", flush=True)
    return list(found.values())


def main():
    names = [it for it in sys.argv[1:] if it != "--here"]
    if not names:
        print(__doc__)
        return 2
    top = os.path.dirname(os.path.dirname(os.path.abspath(__file__)))
    with tempfile.TemporaryDirectory() as room:
        if "--here" not in sys.argv:
            shutil.copytree(top, f"{room}/copy", ignore=shutil.ignore_patterns("incremental", ".git"))
            top = f"{room}/copy"
            subprocess.run(["git", "init", "-q"], cwd=top, check=True)
        found = [what for name in names for what in try_crate(os.path.join(top, "crates", name))]
    counts = [sum(it.startswith(word) for it in found) for word in ("refused", "BAD EDIT", "NOT REFUSED")]
    others = len(found) - sum(counts)
    print(f"{len(found)} edits: {counts[0]} refused, {counts[1]} bad, {counts[2]} not refused, {others} not tried")
    return 0 if counts[0] == len(found) else 1


if __name__ == "__main__":
    sys.exit(main())
