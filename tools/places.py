#!/usr/bin/env python3
"""Lists the places of docs/DESIGN-PASS.md in src/ (and for point 8 in proofs/), point by point.

usage: python3 tools/places.py            counts, for the tree it stands in
       python3 tools/places.py -v         and each place, with the line beside it that says why it stays, if there is one
       python3 tools/places.py -v FOLDER  of another tree (git archive COMMIT | tar -x -C FOLDER)

A place is found by its text alone, so a point counts what looks like it; the page says of each that is left why it stays. A reason is a comment
line that begins with 'Stays', on the place's own line, within a comment right above it, or above the function or struct that holds it.
"""
import collections
import glob
import os
import re
import sys

ARRAY = re.compile(r"&(?:'a )?(?:mut )?\[\w+; \w+\]")


def sources(root):
    for path in sorted(glob.glob(os.path.join(root, "crates/*/src/**/*.rt"), recursive=True)):
        with open(path, encoding="utf-8") as file:
            yield os.path.relpath(path, root), file.read().split("\n")


def items(lines):
    """Each function, struct and enum: its kind, name, first line and last line."""
    for first, line in enumerate(lines):
        found = re.match(r"(\s*)(?:pub )?(?:const )?(?:extern \"C\" )?(fn|struct|enum) (\w+)", line)
        if not found:
            continue
        close = found[1] + "}"
        last = first
        if not line.rstrip().endswith(("}", ";")):
            while last < len(lines) - 1 and not (lines[last].startswith(close) and not lines[last].startswith(close + ",")):
                last += 1
        yield found[2], found[3], first, last


def code(lines):
    return [line.split("//")[0] for line in lines]


def reason(lines, at, holder):
    """The comment that says why a place stays: on its line, right above it, or above what holds it."""
    for start in (at, holder):
        if start is None:
            continue
        where = start
        while where >= 0 and (where == start or re.match(r"\s*(//|#\[)", lines[where])):
            found = re.search(r"// (Stays.*)", lines[where])
            if found:
                return found[1]
            where -= 1
    return None


def shape(text):
    """What is left of a function without its names, types and numbers."""
    body = re.sub(r"\b(requires|ensures)( \w+)? \{.*\}$", "", text, flags=re.M)
    body = re.sub(r"'a |<'a>", "", body)
    names = {}
    def name(word):
        if re.fullmatch(r"fn|let|mut|if|else|while|for|in|loop|return|match|as|true|false|pub", word[0]):
            return word[0]
        return names.setdefault(word[0], "n%d" % len(names))
    return re.sub(r"\s+", " ", re.sub(r"\b\w+\b", name, re.sub(r"\b\d[\d_]*\b", "N", re.sub(r"\bu(8|16|32|64|size)\b", "U", body))))


def places(root):
    found = collections.defaultdict(list)
    shapes, together = collections.defaultdict(list), collections.defaultdict(list)
    for path, lines in sources(root):
        plain = code(lines)
        here = list(items(lines))
        holder = {}
        for kind, name, first, last in here:
            for at in range(first, last + 1):
                holder[at] = first
        def put(point, at, text):
            found[point].append((path, at + 1, text, reason(lines, at, holder.get(at))))
        for kind, name, first, last in here:
            text = "\n".join(plain[first : last + 1])
            head = text.split("{")[0] if kind == "fn" else text
            if kind == "enum":
                if not re.search(r"(Error|Reason)$", name):
                    put("1a own enums that are no kind of error", first, "enum " + name)
            if kind == "struct":
                flags = re.findall(r"(\w+): bool", text)
                if flags:
                    put("1b flags beside values in a struct", first, "struct %s: %s" % (name, ", ".join(flags)))
                sizes = collections.Counter(re.findall(r": \[\w+; (\w+)\]", text))
                if sizes and max(sizes.values()) > 1:
                    put("6a parallel arrays", first, "struct " + name)
            if re.search(r"\breason: u\d+|\bTurnedAway\(u8", text if kind != "fn" else head):
                put("1c numbers for reasons", first, kind + " " + name)
            if kind == "fn":
                if re.search(r"\bfn main\b", head):
                    continue
                shapes[shape(text)].append((path, first, name, reason(lines, first, None)))
                if len(ARRAY.findall(head)) > 2:
                    put("5 three lent arrays or more in a parameter list", first, "fn " + name)
                if re.search(r"&(mut )?\[u8\]", head) and re.search(r"\w+: (&mut )?usize", head):
                    put("6b a lent buffer with a place or a length beside it", first, "fn " + name)
                for flag in re.findall(r"(\w+): bool", head):
                    if re.search(r"\bif [^{]*\b%s\b" % flag, text) or re.search(r"\b%s[,)]" % flag, text.split("{", 1)[1]):
                        put("7 a flag as a parameter that is tested or handed on", first, "fn %s: %s" % (name, flag))
                above = []
                where = first - 1
                while where >= 0 and re.match(r"\s*(//|#\[)", lines[where]):
                    above.insert(0, lines[where].strip().lstrip("/ "))
                    where -= 1
                if re.search(r"0 (where|for none|beyond)|where there is none|where none", " ".join(above)) and not re.search(r"Option<|Result<", head):
                    put("1d a number that stands for none", first, "fn " + name)
                if re.search(r"^print_|^spaced_|^turned_away$|_line$|^line_of", name):
                    put("4d printing as a function", first, "fn " + name)
                body = [line.strip() for line in plain[first : last + 1] if line.strip() and not re.match(r"\s*(requires|ensures|pub fn|fn)\b", line)]
                body = " ".join(body)
                if re.fullmatch(r"\{ (\w+(\[\w+\])?( as \w+)|\w+::from\(\w+\)) \}", body):
                    put("4a a conversion as a function of its own", first, "fn " + name)
                if re.fullmatch(r"\{ if (\w+) < (\w+) \{ (\1|\2) \} else \{ (\1|\2) \} \}", body) or re.search(r"^\{ if \w+ == 0 \{ (return )?\w+;? \}", body):
                    put("4b min, max, division by 0 by hand", first, "fn " + name)
                if re.match(r"\{ match", body) and re.search(r"\w+_of$|^step_behind$", name):
                    put("4c a conversion of an enum as a function", first, "fn " + name)
        for at, line in enumerate(plain):
            if re.match(r"\s*(while|loop)\b", line):
                put("3a while and loop", at, line.strip())
            if re.match(r"\s*\w+ (\+= 1|= \w+ \+ 1);", line):
                put("3b a count raised by hand", at, line.strip())
            if re.search(r"\bfor \w+ in \(?0(usize)?\.\.", line):
                put("3c for over places", at, line.strip())
    for alike in shapes.values():
        if len(alike) > 1 and len({name for _, _, name, _ in alike}) + len(alike) > 2:
            for path, first, name, why in alike:
                found["2 functions alike but for names, types and numbers"].append((path, first + 1, "fn %s (%d alike)" % (name, len(alike)), why))
    return found


def answers(root):
    """Point 8: how many answers there are, and the lines `let .. in` that stand more than once in one file of answers."""
    number, repeated = 0, []
    for path in sorted(glob.glob(os.path.join(root, "crates/*/proofs/**/Answers.antt"), recursive=True)):
        with open(path, encoding="utf-8") as file:
            text = file.read()
        number += len(re.findall(r"^pub \S+ : goal\.", text, flags=re.M))
        lets = collections.Counter(line.strip() for line in text.split("\n") if re.match(r"\s*let .* in\b", line))
        many = sum(times for times in lets.values() if times > 1)
        if many:
            repeated.append((os.path.relpath(path, root), many))
    return number, repeated


def main():
    words = sys.argv[1:]
    listed = "-v" in words
    folders = [word for word in words if word != "-v"]
    root = folders[0] if folders else os.path.join(os.path.dirname(os.path.abspath(__file__)), "..")
    found = places(root)
    for point in sorted(found):
        kept = sum(1 for place in found[point] if place[3])
        print("%-60s %3d, with a reason beside it %3d" % (point, len(found[point]), kept))
        if listed:
            for path, line, text, why in found[point]:
                print("    %s:%d: %s%s" % (path, line, text, "    -- " + why if why else ""))
    number, repeated = answers(root)
    print("%-60s %3d" % ("8a answers", number))
    print("%-60s %3d" % ("8b lets that a file of answers repeats", sum(many for _, many in repeated)))
    if listed:
        for path, many in repeated:
            print("    %s: %d" % (path, many))


main()
