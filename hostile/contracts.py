#!/usr/bin/env python3
"""Lists each contract of a public function that differs from another commit's: contracts.py COMMIT

A function is public where it is `pub`, in a trait, or in the impl of one. Of each the clauses are compared, `requires`,
`ensures` and `ghost`, whatever blanks stand in them, and so are the files of specs/, which clauses cite. What differs or
is gone is told with its clauses and with its reason in contracts.txt: a line has the name as it is told here, a tab and the
reason. What is new is told by its name alone. The exit status is 1 where a reason is missing.
"""

import os
import re
import subprocess
import sys

ROOT = os.path.dirname(os.path.dirname(os.path.abspath(__file__)))
CLAUSE = re.compile(r"\s*(requires|ensures|ghost)\b(\*?)\s*(\w+\s*:?)?\s*\{")
SKIPPED = re.compile(r'//[^\n]*|"(?:\\[\s\S]|[^"\\])*"|b?\'(?:\\.[^\']*|[^\\\'])\'')


def files_of(commit):
    """The texts of the crates' sources and definitions at a commit, or in the checkout where there is none."""
    listed = ["git", "ls-tree", "-r", "--name-only", commit] if commit else ["git", "ls-files"]
    names = subprocess.run(listed, cwd=ROOT, stdout=subprocess.PIPE, text=True, check=True).stdout.split("\n")
    found = {}
    for name in names:
        if re.match(r"crates/\w+/(src/.*\.rt|specs/.*\.antt)$", name):
            if commit:
                shown = subprocess.run(["git", "show", f"{commit}:{name}"], cwd=ROOT, stdout=subprocess.PIPE, check=True)
                found[name] = shown.stdout.decode()
            elif os.path.isfile(f"{ROOT}/{name}"):
                with open(f"{ROOT}/{name}", encoding="utf-8") as file:
                    found[name] = file.read()
    return found


def blanked(text):
    """The text with comments and literals blanked, so that braces match."""
    return SKIPPED.sub(lambda it: re.sub(r"[^\n]", " ", it[0]), text)


def end_of(text, at):
    """Behind the brace that closes the one that stands at a place."""
    depth = 0
    for place in range(at, len(text)):
        depth += {"{": 1, "}": -1}.get(text[place], 0)
        if depth == 0:
            return place + 1
    return len(text)


def signature_end(bare, at):
    """Where the signature of a function ends whose name ends at a place: at its first clause, its body or its semicolon."""
    depth, word = 0, re.compile(r"\s(?:requires|ensures|ghost)\b\*?\s*(?:\w+\s*:?)?\s*\{")
    for place in range(at, len(bare)):
        depth += {"(": 1, "[": 1, ")": -1, "]": -1}.get(bare[place], 0)
        if depth == 0 and (bare[place] in "{;" or word.match(bare, place)):
            return place
    return len(bare)


def clauses_behind(text, bare, at):
    """The clauses that stand behind a function's signature."""
    found = []
    while told := CLAUSE.match(bare, at):
        behind = end_of(bare, told.end() - 1)
        found.append(" ".join(text[told.start() : behind].split()))
        at = behind
    return found


def owner_at(bare, at):
    """The header of the impl or trait in which a place stands, or an empty text."""
    owner = ""
    for told in re.finditer(r"^(?:pub(?:\([^)]*\))? )?(?:unsafe )?(impl|trait)\b[^{;]*\{", bare, re.M):
        if told.start() > at:
            break
        if at < end_of(bare, told.end() - 1):
            owner = " ".join(told[0][:-1].split())
    return owner


def contracts_in(path, text):
    """The clauses of each public function of a file, by crate, owner and name."""
    crate, bare, found = path.split("/")[1], blanked(text), {}
    for told in re.finditer(r"^([ \t]*)(pub(?:\([^)]*\))? )?(?:const |unsafe )*fn (\w+)", bare, re.M):
        owner = owner_at(bare, told.start())
        is_of_trait = bool(re.search(r"\btrait\b", owner) or re.match(r"(unsafe )?impl\b.*\bfor\b", owner))
        if (told[2] or "").strip() != "pub" and not is_of_trait:
            continue
        clauses = clauses_behind(text, bare, signature_end(bare, told.end()))
        found.setdefault((crate, owner, told[3]), []).append(clauses)
    return found


def all_contracts(files):
    found = {}
    for path, text in sorted(files.items()):
        if path.endswith(".rt"):
            for name, clauses in contracts_in(path, text).items():
                found.setdefault(name, []).extend(clauses)
    return found


def told_name(name):
    return " ".join(part for part in (name[0], name[1], f"fn {name[2]}") if part)


def read_reasons():
    """The reasons of what differs, by the name as it is told."""
    with open(f"{ROOT}/hostile/contracts.txt", encoding="utf-8") as file:
        lines = [line.split("\t") for line in file.read().splitlines() if line and not line.startswith("#")]
    return {line[0]: line[1] for line in lines}


def differing_contracts(old, new):
    """The names of the functions whose clauses differ or are gone, each with its clauses then and now."""
    for name in sorted(old):
        gone = [it for clauses in old[name] for it in clauses]
        come = [it for clauses in new.get(name, []) for it in clauses]
        if name not in new or sorted(gone) != sorted(come):
            yield name, [it for it in gone if it not in come], [it for it in come if it not in gone]


def main(commit):
    before, now, reasons = files_of(commit), files_of(None), read_reasons()
    old, new, differing, missing = all_contracts(before), all_contracts(now), 0, 0

    def tell(what, is_gone, gone, come):
        nonlocal differing, missing
        differing += 1
        missing += what not in reasons
        print(f"{what}{' is gone' if is_gone else ''}: {reasons.get(what, 'NO REASON IS TOLD')}")
        print("".join(f"    - {it}\n" for it in gone) + "".join(f"    + {it}\n" for it in come), end="")

    for name, gone, come in differing_contracts(old, new):
        tell(told_name(name), name not in new, gone, come)
    for path in sorted(it for it in before if it.endswith(".antt") and before[it] != now.get(it)):
        tell(path, path not in now, [], [])
    fresh = [told_name(it) for it in new if it not in old] + [it for it in now if it.endswith(".antt") and it not in before]
    print("".join(f"new: {it}\n" for it in sorted(fresh)), end="")
    count = f"{sum(map(len, old.values()))} then, {sum(map(len, new.values()))} now"
    print(f"functions {count}; different {differing}, without a reason {missing}")
    return 1 if missing else 0


if __name__ == "__main__":
    sys.exit(main(sys.argv[1]) if len(sys.argv) == 2 else __doc__)
