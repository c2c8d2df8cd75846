#!/usr/bin/env python3
"""Brings the repository's own definitions, lemmas, fields and constructors to snake case (types and modules keep their camel case).

usage: python3 tools/respell.py        at the top of the repository, once, on the tree that port.py left
       python3 tools/respell.py names  lists each old name and its new one, and what to look at: 'together', two old names with one new one;
                                       'taken', a new name that stands somewhere already; changes nothing

A name is turned where it stands as a whole word: in .antt files, in the clauses and comments of .rt files, in must-fail edits and in the
pages. Names that the check generates (a goal, its fields) keep their hyphens, and so do names of the library.
"""
import os
import re
import sys

WORD = re.compile(r"[^\s(){};,.:`\"«»⌜⌝\\]+")
DECLARED = re.compile(r"^[ ]*((?:(?:abbrev|unfoldable|pub|private)[ ]+)*)((?:[^\s(){};,.:`\"|λ=←→]+[ ]+)+):(?= )", re.M)
IMPORT = re.compile(r"^(?:\s*)(?:pub |unfoldable |abbrev |ghost )*use ([\w.·']+)(?:\.\{([^}]*)\})?(?: as (\S+))?", re.M)
KEYWORDS = {"record", "data", "module", "use", "let", "in", "where", "if", "then", "else", "infix", "unfolding", "pub", "abbrev", "unfoldable", "ensures", "requires"}
# Words that read badly letter by letter, and words that another name of ours, a keyword or a name in scope would fall together with.
CHOSEN = {
    "getD-list": "get_or_list",
    "getD-beyond": "get_or_beyond",
    "getD-other": "get_or_other",
    # a law or a field beside the definition that it speaks of
    "byPhase": "listed_by_phase",
    "accepted-numbers": "accepted_numbers_lem",
    "all-tasks": "all_tasks_lem",
    "counts-in": "counts_in_range",
    "held-for": "held_for_lem",
    "in-front": "in_front_lem",
    "in-state": "in_state_lem",
    "let-in": "let_in_lem",
    "next-test": "next_test_lem",
    "phase-at": "phase_at_lem",
    "phase-numbers": "phase_numbers_lem",
    "phases-from": "phases_from_lem",
    "phases-of": "phases_of_lem",
    "pick-by-at": "pick_by_at_lem",
    "ran-at": "ran_at_lem",
    "record-after": "record_after_lem",
    "rules-answer": "rules_answer_lem",
    "task-at": "task_at_lem",
    "added-most": "added_at_most",
    "budget-most": "budget_at_most",
    "cost-most": "cost_at_most",
    "horizon-most": "horizon_at_most",
    "jobs-most": "jobs_at_most",
    "phase-most": "phase_at_most",
    "phases-most": "phases_at_most",
    "piece-most": "piece_at_most",
    "spacing-most": "spacing_at_most",
    "tasks-most": "tasks_at_most",
    "work-most": "work_at_most",
}
# What a proof calls a step of the code: a function of src/ that a law shares its name with.
STEPS = {"at-phase", "let-in", "others-of", "phase-at", "task-at"}


def files(root, endings):
    for folder, dirs, names in os.walk(root):
        dirs[:] = sorted(d for d in dirs if d not in ("out", "target", ".git"))
        for f in sorted(names):
            if f.endswith(endings):
                yield os.path.join(folder, f)


def read(path):
    with open(path, encoding="utf-8") as f:
        return f.read()


def answers_goals(path):
    """A file in proofs/F/, whose own names may be those of goals."""
    return re.search(r"/proofs/.*/(Proof|Statement)\.antt$", path) is not None


def snake(name):
    if name in CHOSEN:
        return CHOSEN[name]
    words = name.replace("-", "_")
    words = re.sub(r"(?<=[a-z0-9'])([A-Z])", lambda m: "_" + m.group(1), words)
    return words.lower() if re.match(r"[a-z]", words) else words


def declared(text):
    found = set()
    for m in DECLARED.finditer(text):
        for name in m.group(2).split():
            if name not in KEYWORDS and "◌" not in name and "?" not in name:
                found.add(name)
    return found


def library_names(text):
    found = set()
    for m in IMPORT.finditer(text):
        module = m.group(1)
        if module.startswith("Rattle.") and not module.startswith("Rattle.std.") or module.startswith("Rattle·"):
            continue
        for item in (m.group(2) or "").split(","):
            words = item.split(" as ")
            if item.strip():
                found.add(words[-1].strip())
    return found


def table(root):
    own = {}
    for path in files(os.path.join(root, "crates"), (".antt",)):
        if answers_goals(path):
            continue
        for name in declared(read(path)):
            new = snake(name)
            if re.match(r"[a-z]", name) and new != name:
                own[name] = new
    return own


def turned(path, text, own):
    """The text with our names turned, and what to look at."""
    kept = library_names(text) if path.endswith((".antt", ".rt")) else set()
    local = declared(text) if answers_goals(path) else set()
    generated = answers_goals(path)

    def word(m):
        w = m.group(0)
        new = own.get(w)
        if new is None or w in kept:
            return w
        behind_dot = text[max(0, m.start() - 1):m.start()] == "."
        if behind_dot and generated and w in STEPS:
            return w.replace("-", "_")
        if not behind_dot and w in local:
            return w
        return new

    return WORD.sub(word, text)


def main(argv):
    own = table(".")
    by_new = {}
    for old, new in own.items():
        by_new.setdefault(new, []).append(old)
    if argv == ["names"]:
        for old in sorted(own):
            print(old, own[old])
        for new, olds in sorted(by_new.items()):
            if len(olds) > 1:
                print("together:", new, *olds)
        everywhere = {}
        for path in files("crates", (".antt",)):
            for w in set(WORD.findall(read(path))):
                everywhere.setdefault(w, []).append(path)
        for new, olds in sorted(by_new.items()):
            if new in everywhere:
                here = [p for p in everywhere[new] if any(o in WORD.findall(read(p)) for o in olds)]
                print("taken:", new, *olds, "in", len(everywhere[new]), "files; both in", *here)
        return 0
    for path in list(files("crates", (".antt", ".rt", ".edit"))) + ["README.md"] + list(files("docs", (".md",))):
        text = read(path)
        new = turned(path, text, own)
        if new != text:
            with open(path, "w", encoding="utf-8") as f:
                f.write(new)
    return 0


if __name__ == "__main__":
    raise SystemExit(main(sys.argv[1:]))
