#!/usr/bin/env python3
"""Respells the repository's own names in contracts, specs and proofs: words in snake case, types in camel case.

usage: python3 tools/respell.py [--list]      at the top of the repository, once, right after the kit's own script
       python3 tools/respell.py --inner       then once more: names that stand indented, in modules and below other declarations,
                                              and names with dashes in clauses
"""
import os
import re
import sys

WORD = re.compile(r"«[^»\n]+»|[^\W\d][\w'′\-]*", re.UNICODE)
HEAD = re.compile(r"^(?:(?:abbrev|unfoldable|pub|opaque|mutual)\s+)*((?:«[^»]+»|[^\W\d][\w'′\-]*))((?:\s+[^\W\d][\w'′\-]*)*)\s+:\s+(.*)$", re.UNICODE)
KIND = re.compile(r"^\s*(?:pub\s+)?(record|data|ruleset)\s+([^\W\d][\w'′\-]*)")
FIELD = re.compile(r"^\s+(?:pub\s+)?([^\W\d][\w'′\-]*)((?:\s+[^\W\d][\w'′\-]*)*)\s+:\s")
ALIAS = re.compile(r"([^\W\d][\w'′\-]*)\s+as\s+([^\W\d][\w'′\-]*)")
PROP = re.compile(r"deriving\s+\w+\s+as\s+([^\W\d][\w'′\-]*)")
# what the check itself names: these keep their dashes
MADE = re.compile(r"^(loop|returns|then|else|if|in|in_ok|in_err|invariant|decreases|overflow|index|cast|size|while|shift|divide|rem)[-_]|-(requires|ensures|init|preserved|index|items|result|is|at)$|^invariant_of")


def files(root, endings):
    for folder, dirs, names in os.walk(os.path.join(root, "crates")):
        dirs[:] = sorted(d for d in dirs if d != "out")
        for n in sorted(names):
            if n.endswith(endings):
                yield os.path.join(folder, n)


def snake(name):
    name = name.replace("′", "'").replace("-", "_")
    name = re.sub(r"([a-z0-9'])([A-Z])", r"\1_\2", name)
    return name.lower()


def camel(name):
    return "".join(p[:1].upper() + p[1:] for p in re.split(r"[-_]", name))


def declared(root):
    """Each own name with whether it is a type."""
    names = {}
    for path in files(root, (".antt",)):
        answers = os.path.basename(path) in ("Answers.antt", "Invariants.antt", "Choices.antt")
        lines = open(path, encoding="utf-8").read().split("\n")
        inside = None
        for i, line in enumerate(lines):
            m = KIND.match(line)
            if m and not line.startswith(" "):
                inside = m.group(1)
                names.setdefault(m.group(2), inside != "ruleset")
                continue
            if line and not line.startswith((" ", "-", "#")):
                inside = None
            if inside in ("record", "data"):
                f = FIELD.match(line)
                if f:
                    for n in [f.group(1)] + f.group(2).split():
                        if n != "pub":
                            names.setdefault(n, False)
            p = PROP.search(line)
            if p:
                names.setdefault(p.group(1), False)
            h = HEAD.match(line)
            if h and not (answers and re.match(r"goal\.", h.group(3))):
                whole = h.group(3)
                j = i + 1
                while j < len(lines) and lines[j].startswith(" "):
                    whole += " " + lines[j].strip()
                    j += 1
                kind = bool(re.search(r"Type (0|ℓ|\d)\s*$", whole))
                for n in [h.group(1)] + h.group(2).split():
                    names.setdefault(n.strip("«»"), kind)
            for a in ALIAS.finditer(line) if line.startswith("use ") else ():
                names.setdefault(a.group(2), a.group(2)[:1].isupper())
    for path in files(root, (".rt",)):
        for line in open(path, encoding="utf-8").read().split("\n"):
            if line.startswith("ghost use "):
                for a in re.finditer(r"«?([^\W\d][\w'′\-]*)»?\s+as\s+«?([^\W\d][\w'′\-]*)»?", line):
                    names.setdefault(a.group(2), a.group(2)[:1].isupper())
            g = re.match(r"^\s*(?:pub\s+)?ghost\s+«?([^\W\d][\w'′\-]*)»?\s*:", line)
            if g:
                names.setdefault(g.group(1), False)
    return names


# where two names would fall together, the lemma gets the ending
LEMMAS = {"figure-of": "figure_of_lem", "job-text": "job_text_lem", "natural-of": "natural_of_lem", "row-fault": "row_fault_lem", "solid-mean": "solid_mean_lem"}
# in .antt files alone: names that the kit's script had turned to what a definition is called now
TAKEN = {"same_whole": "same_whole_lem", "point_at": "point_at_lem"}
# numbers with a capital, by the folder that they stand in
NUMBERS = {
    "point": {"Limit": "coordinate_limit", "Full": "full_count", "Handles": "handle_count", "Whole": "row_whole"},
    "order": {"LimitMm": "limit_mm", "UnitsPerMm": "units_per_mm"},
}
ELSEWHERE = {os.path.join("order", "proofs", "Outcomes.antt"): {"Limit": "coordinate_limit"}}
RESERVED = set("data record deriving module where use mod pub package open as unfoldable abbrev axiom unfold unfolding ruleset mutual infix infixl infixr elim let in do Type coe fcoe tcoe hcom com".split())


def turns(names):
    """The new name of each own name that is respelled, and those that the check may also make as a field."""
    said, made = {}, set()
    for n, kind in names.items():
        if n == "digitValue":
            continue
        if n[:1].isupper():
            new = camel(n) if kind else n
        else:
            new = LEMMAS.get(n, snake(n))
        if new != n:
            said[n] = new
            if MADE.search(n) and n not in ("figure-is", "else-where", "split-is"):
                made.add(n)
    return said, made


def foreign(text, own):
    """The names that a file imports from a library: they are the library's."""
    found = set()
    for m in re.finditer(r"(?m)^(?:ghost )?use ([\w.·+\-]+?)\.\{([^}]*)\}", text):
        path = m.group(1).split(".")
        if path[0] == "Rattle" and len(path) > 1 and path[1] in own:
            continue
        for it in m.group(2).split(","):
            found.add(it.split(" as ")[-1].strip().strip("«»"))
            found.add(it.split(" as ")[0].strip().strip("«»"))
    return found


def turned(text, said, made, more, rust, theirs):
    def word(m):
        w = m.group(0)
        bare = w.strip("«»")
        quoted = w.startswith("«")
        if rust and not quoted and "-" in bare:
            return w
        new = None if bare in theirs else more.get(bare) or said.get(bare)
        if new is None or (bare in made and m.start() and text[m.start() - 1] == "."):
            new = bare
            if quoted and (bare in RESERVED or not re.fullmatch(r"\w+", bare)):
                return w
            return bare if quoted else w
        return new

    out, at = [], 0
    # strings and comments stay
    for q in re.finditer(r'"(?:[^"\\\n]|\\.)*"|' + (r"//[^\n]*" if rust else r"(?<!\S)--(?=\s)[^\n]*"), text):
        out.append((at, q.start(), True))
        out.append((q.start(), q.end(), False))
        at = q.end()
    out.append((at, len(text), True))
    done = []
    for a, b, turn in out:
        if not turn:
            done.append(text[a:b])
            continue
        done.append(part(text, a, b, word))
    return "".join(done)


def part(text, a, b, word):
    out, at = [], a
    for m in WORD.finditer(text, a, b):
        out.append(text[at : m.start()])
        out.append(word(m))
        at = m.end()
    out.append(text[at:b])
    return "".join(out)


INNER = re.compile(r"^\s+(?:(?:pub|abbrev|unfoldable)\s+)*([a-z][\w']*(?:-[\w']+)+)(?:\s+[^\W\d][\w'\-]*)*\s+:\s", re.UNICODE)
CLAUSED = re.compile(r"[^\W\d][\w']*(?:-[\w']+)+", re.UNICODE)


def turn_inner(root):
    """The second turn: each name with a dash that stands indented, and what the first turn left in clauses."""
    own = set(os.listdir(os.path.join(root, "crates")))
    said = {}
    for path in files(root, (".antt",)):
        if os.path.basename(path) in ("Answers.antt", "Invariants.antt"):
            continue
        for line in open(path, encoding="utf-8").read().split("\n"):
            m = INNER.match(line)
            if m:
                said[m.group(1)] = m.group(1).replace("-", "_")
    made = {n for n in said if MADE.search(n)}
    names = set(declared(root)) | set(said.values())
    for path in files(root, (".antt", ".rt")):
        text = open(path, encoding="utf-8").read()
        if path.endswith(".antt"):
            new = turned(text, said, made, {}, False, foreign(text, own))
        else:
            new = "".join(
                code if '"' in code else CLAUSED.sub(lambda m: m.group(0).replace("-", "_") if m.group(0).replace("-", "_") in names else m.group(0), code.partition("//")[0]) + "".join(code.partition("//")[1:])
                for code in text.splitlines(keepends=True)
            )
        with open(path, "w", encoding="utf-8") as f:
            f.write(new)
    return said


def main(argv):
    root = os.getcwd()
    if argv == ["--inner"]:
        print(len(turn_inner(root)), "names")
        return 0
    names = declared(root)
    said, made = turns(names)
    if argv:
        for old, new in sorted(said.items()):
            print(old, "->", new, "CLASH" if new in names or list(said.values()).count(new) > 1 else "")
        return 0
    own = set(os.listdir(os.path.join(root, "crates")))
    for path in files(root, (".antt", ".rt")):
        inner = os.path.relpath(path, os.path.join(root, "crates"))
        rust = path.endswith(".rt")
        more = dict(NUMBERS.get(inner.split(os.sep)[0], {}))
        more.update(ELSEWHERE.get(inner, {}))
        if not rust:
            more.update(TAKEN)
        text = open(path, encoding="utf-8").read()
        if inner == os.path.join("sheet", "proofs", "Numbers.antt"):
            text = re.sub(r"(?<![\w-])digit_value(?= :| c )", "digit_value_is", text)
            text = text.replace("digit_value as digitValue", "digit_value").replace("let d = digit_value (", "let d = digit_value_is (").replace("digitValue", "digit_value")
        new = turned(text, said, made, more, rust, foreign(text, own))
        with open(path, "w", encoding="utf-8") as f:
            f.write(new)
    return 0


if __name__ == "__main__":
    raise SystemExit(main(sys.argv[1:]))
