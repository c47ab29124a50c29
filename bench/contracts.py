#!/usr/bin/env python3
"""Compares the public contracts of two trees, or measures the form of one.

usage: bench/contracts.py OLD NEW [CRATE ..]
       bench/contracts.py --measure TREE [CRATE ..]

A tree is a folder with crates/; of an older commit, `git worktree add FOLDER COMMIT` makes one. The comparison prints each
public function that is new, gone, or has other clauses, word for word. The measure prints clauses (of all functions) of
more than 100 characters within their braces, bodies of more than 30 lines, public functions of more than four clauses, and
answers of more than 20 lines. Tests are left out, and the crates of tests.
"""
import pathlib
import re
import sys

HEAD = re.compile(r"^( *)(pub(?:\(crate\))? )?(?:const )?fn (\w+)")
CLAUSE = re.compile(r"^\s*(?:requires|ensures)\b")
LONG, LONGEST, BODY, CLAUSES, ANSWER = 100, 160, 30, 4, 20


def of_code(tree, crate, folder, files):
    """The files of a crate's folder that are not of tests."""
    if crate.endswith(("_tests", "_trials")):
        return
    top = tree / "crates" / crate / folder
    for path in sorted(top.rglob(files)):
        if not {"tests", "tests.rt"} & set(path.relative_to(top).parts):
            yield path


def sources(tree, crate):
    return of_code(tree, crate, "src", "*.rt")


def end_of_body(lines, at, indent):
    """The line after the last one of the body that begins at a line."""
    while at < len(lines) and lines[at] != indent + "}":
        at += 1
    return at


def functions(path):
    """Of each function of a file: its name, whether it is public, its clauses, how many lines its body has."""
    lines = path.read_text().split("\n")
    owner, at = "", 0
    while at < len(lines):
        line = lines[at]
        if line.startswith("impl"):
            owner = re.sub(r"^impl(<[^>]*>)?\s*", "", line).strip(" {")
        elif line.startswith("pub trait "):
            owner = line.strip(" {").removeprefix("pub ")
        elif line == "}":
            owner = ""
        head = HEAD.match(line)
        at += 1
        if not head:
            continue
        indent, public, name = head.groups()
        clauses, clause = [], None
        while not line.endswith((";", "}")) and at < len(lines):
            line = lines[at]
            if clause is None and (line == indent + "{" or line.startswith(indent + ")") and line.endswith(("{", ";"))):
                break
            at += 1
            if clause is None and CLAUSE.match(line):
                clause = ""
            if clause is not None:
                clause += " " + line.strip()
                if "{" in clause and clause.count("{") == clause.count("}"):
                    clauses.append(clause.strip(" ;"))
                    # A method of a trait has no body: its last clause ends it.
                    ended, clause = clause.endswith(";"), None
                    if ended:
                        break
                line = ""
        end = end_of_body(lines, at, indent) if line.endswith("{") or lines[at : at + 1] == [indent + "{"] else at
        is_public = public == "pub " or " for " in owner or owner.startswith("trait ")
        yield (f"{owner}::{name}" if owner else name), is_public, clauses, end - at - 1


def inner(clause):
    return re.sub(r"^(requires|ensures)\s*\w*\s*\{(.*)\}$", r"\2", clause).strip()


def measure(tree, crates):
    found = {"clauses": [], "bodies": [], "functions": [], "answers": []}
    for crate in crates:
        for path in sources(tree, crate):
            for name, is_public, clauses, body in functions(path):
                where = f"{crate} {path.name} {name}"
                found["clauses"] += [(len(inner(c)), f"{where}: {c}") for c in clauses if len(inner(c)) > LONG]
                found["bodies"] += [(body, where)] if body > BODY else []
                found["functions"] += [(len(clauses), where)] if is_public and len(clauses) > CLAUSES else []
        for path in of_code(tree, crate, "proofs", "Answers.antt"):
            lines = sum(1 for line in path.read_text().split("\n") if line.strip())
            found["answers"] += [(lines, str(path.relative_to(tree)))] if lines > ANSWER else []
    longest = sum(1 for length, _ in found["clauses"] if length > LONGEST)
    print(
        f"clauses over {LONG} characters {len(found['clauses'])}, over {LONGEST} {longest}; bodies over {BODY} lines "
        f"{len(found['bodies'])}; public functions of more than {CLAUSES} clauses {len(found['functions'])}; "
        f"answers over {ANSWER} lines {len(found['answers'])}"
    )
    for rows in found.values():
        for size, where in sorted(rows, reverse=True):
            print(size, where)


def contracts(tree, crate):
    found = {}
    for path in sources(tree, crate):
        for name, is_public, clauses, _ in functions(path):
            if is_public:
                found[name] = clauses
    return found


def compare(old, new, crates):
    for crate in crates:
        before, after = contracts(old, crate), contracts(new, crate)
        for name in sorted({*before, *after}):
            if name not in after:
                print(f"{crate} {name}: gone")
            elif name not in before:
                print(f"{crate} {name}: new")
            elif before[name] != after[name]:
                print(f"{crate} {name}:")
                for sign, these, those in (("-", before, after), ("+", after, before)):
                    for clause in these[name]:
                        if clause not in those[name]:
                            print(f"    {sign} {clause}")


def main():
    words = sys.argv[1:]
    if len(words) < 2:
        print(__doc__.split("\n\n")[1], file=sys.stderr)
        return 2
    tree = pathlib.Path(words[1])
    crates = words[2:] or sorted(path.name for path in (tree / "crates").iterdir() if path.is_dir())
    if words[0] == "--measure":
        measure(tree, crates)
    else:
        compare(pathlib.Path(words[0]), tree, crates)
    return 0


if __name__ == "__main__":
    sys.exit(main())
