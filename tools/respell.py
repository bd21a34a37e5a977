#!/usr/bin/env python3
"""Brings this repository's own names to the spelling of the kit, after port.py has run.

usage: python3 tools/respell.py [FOLDER]      rewrites the files below FOLDER/crates in place (FOLDER: this repository)

Definitions and lemmas get snake case (clash-free-by to clash_free_by), facts and records that begin with a capital get camel case
(Charges-whole to ChargesWhole). Names of the libraries and the names that rt makes for goals keep their spelling.
"""

import os
import re
import sys

WORD = re.compile(r"[^\s(){}\[\];,.«»⟦⟧\"|:]+")
DECLARED = re.compile(r"^[ \t]*(?:(?:pub|abbrev|unfoldable|record|data|ruleset)\s+)*([^\s(){}\[\];,.:«»\"|=]+(?:[ \t]+[^\s(){}\[\];,.:«»\"|=]+)*?)(?:[ \t]*[({][^=]*?)?[ \t]+:[ \t\n]", re.M)
MADE = re.compile(r"^\s*(?:abbrev\s+)?(?:pub\s+)?(\S+)\s*:\s*goal\.", re.M)


def crates(top):
    folder = os.path.join(top, "crates")
    return [c for c in sorted(os.listdir(folder)) if os.path.isdir(os.path.join(folder, c))]


def files(top, ends):
    for folder, dirs, names in os.walk(os.path.join(top, "crates")):
        dirs[:] = sorted(d for d in dirs if d not in ("out", "target"))
        for n in sorted(names):
            if n.endswith(ends):
                yield os.path.join(folder, n)


def is_answer(path):
    return os.path.basename(path) in ("Answers.antt", "Invariants.antt", "Choices.antt", "Proof.antt")


# Statements for all contests and histories, whose names in camel case are those of the records that they are about.
APART = {"One-award": "AlwaysOneAward", "Truth-pays": "TruthAlwaysPays"}


# Names that were in camel case though they are no types.
CAMEL = {
    "getD_mapped": "get_or_mapped", "getD_from": "get_or_from", "inQ": "in_q", "headerLine": "header_line", "lotLine": "lot_line", "bidLine": "bid_line",
    "lotCount": "lots_so_far", "makingOf": "making_of", "permitCall": "permit_call", "lodgeCall": "lodge_call", "withdrawCall": "withdraw_call", "loadCall": "load_call",
    "acceptedWith": "accepted_with", "refusedBy": "refused_by", "refusalOf": "refusal_of",
}


def respelled(name):
    if name in APART:
        return APART[name]
    parts = name.split("-")
    if name[:1].isupper():
        return parts[0] + "".join(p[:1].upper() + p[1:] for p in parts[1:])
    return "_".join(parts)


def has_hyphen(word):
    return bool(re.search(r"[\w'₀-₉]-[\w₀-₉]", word)) and not word.startswith("-")


def code_and_comment(line):
    at = re.search(r"(?:^|\s)--(?:\s|$)", line)
    return (line[: at.start()], line[at.start():]) if at else (line, "")


def library_names(top):
    """The hyphenated names that some file imports from a library, or that rt makes for a goal."""
    own = "|".join(map(re.escape, crates(top)))
    imports = re.compile(r"\buse\s+([\w.·+'-]+)\.\{([^}]*)\}")
    mine = re.compile(r"^Rattle\.(?:%s)\." % own)
    found = set()
    for p in files(top, (".antt", ".rt")):
        text = open(p, encoding="utf-8").read()
        for path, names in imports.findall(text):
            if not mine.match(path) or ".Goals" in path or ".Given" in path:
                found |= {n.strip().split(" as ")[0].strip() for n in names.split(",")}
        if is_answer(p):
            found |= set(MADE.findall(text))
    return {n for n in found if has_hyphen(n)}


def declared_names(top, library):
    """The hyphenated names that a specs or lemma file declares, or an answer file for itself."""
    found = set()
    for p in files(top, (".antt",)):
        text = "\n".join(code_and_comment(line)[0] for line in open(p, encoding="utf-8").read().split("\n"))
        answer = is_answer(p)
        made = set(MADE.findall(text)) if answer else set()
        for m in DECLARED.finditer(text):
            for n in m.group(1).split():
                if has_hyphen(n) and n not in made:
                    found.add(n)
        if not answer:
            # what lemmas bind for themselves
            for line in text.split("\n"):
                if re.match(r"\s*(?:pub\s+)?use\s", line):
                    continue
                found |= {w for w in WORD.findall(line) if has_hyphen(w) and re.fullmatch(r"[\w'₀-₉-]+", w)}
        else:
            found |= {n for n in re.findall(r"\blet\s+([\w'-]+)\s*[:=]", text) if has_hyphen(n)}
    for p in files(top, (".antt", ".rt")):
        # what an import names anew
        for names in re.findall(r"\buse\s+[\w.·+'-]+\.\{([^}]*)\}", open(p, encoding="utf-8").read()):
            found |= {n for n in re.findall(r"\sas\s+([^\s,]+)", names) if has_hyphen(n)}
    return {n for n in found if n not in library and not re.fullmatch(r"[\d-]+", n)}


def turn_code(text, names):
    def one(m):
        w = m.group(0)
        return respelled(w) if w in names else w

    text = re.sub(r"(?<![\w'₀-₉-])(?:%s)(?![\w'₀-₉-])" % "|".join(CAMEL), lambda m: CAMEL[m.group(0)], text)
    return re.sub(r"(?<![\w'₀-₉-])[^\W\d][\w'₀-₉]*(?:-[\w'₀-₉]+)+", one, text)


def turn_comment(text, names, words):
    """A comment: what stands in its first column, and each name that is no English word."""
    def one(m):
        w = m.group(0)
        return respelled(w) if w in names and w not in words else w

    return re.sub(r"(?<![\w'₀-₉-])[^\W\d][\w'₀-₉]*(?:-[\w'₀-₉]+)+", one, text)


def turn_head(line, names):
    """A line of the list at a file's head: '--   name, name   what it is'."""
    m = re.match(r"(\s*--   )([^\s,]+(?:, [^\s,]+)*,?)(\s.*|)$", line)
    if not m:
        return None
    turned = turn_code(m.group(2), names)
    return m.group(1) + turned + m.group(3), len(turned) - len(m.group(2))


ENGLISH = {"clash-free", "First-rest"}


def turn_antt(text, names):
    out = []
    for line in text.split("\n"):
        code, comment = code_and_comment(line)
        code = turn_code(code, names)
        head = turn_head(line, names) if not code.strip() else None
        if head:
            new, shorter = head
            # the second column stays where it was
            m = re.match(r"(\s*--   [^\s,]+(?:, [^\s,]+)*,?)( +)(.*)$", new)
            if m and shorter:
                new = m.group(1) + " " * max(1, len(m.group(2)) - shorter) + turn_comment(m.group(3), names, ENGLISH)
            elif m:
                new = m.group(1) + m.group(2) + turn_comment(m.group(3), names, ENGLISH)
            out.append(new)
        else:
            out.append(code + turn_comment(comment, names, ENGLISH))
    return "\n".join(out)


GHOST = re.compile(r"\bghost\s+use\b|\b(?:requires|ensures)\b[^{\n]*\{|\bghost\s+\w+\s*[:=]\s*\{|^\s*ghost\b")


def turn_rt(text, names):
    """Clauses, ghost members and ghost imports; code and strings have no such names."""
    out, depth, inside = [], 0, False
    for line in text.split("\n"):
        bare = line.strip()
        if bare.startswith("//"):
            out.append(re.sub(r"`([^`]*)`", lambda m: "`" + turn_code(m.group(1), names) + "`", line))
            continue
        if not inside and GHOST.search(line):
            inside, depth = True, 0
        if inside:
            depth += line.count("{") - line.count("}")
            out.append(turn_code(line, names))
            if depth <= 0:
                inside = False
        else:
            out.append(line)
    return "\n".join(out)


def main():
    top = sys.argv[1] if len(sys.argv) > 1 else os.path.dirname(os.path.dirname(os.path.realpath(__file__)))
    library = library_names(top)
    names = declared_names(top, library)
    targets = {}
    for n in sorted(names):
        targets.setdefault(respelled(n), []).append(n)
    for t, ns in sorted(targets.items()):
        if len(ns) > 1:
            print("fall together:", t, ns)
    plain = {}
    for p in files(top, (".antt",)):
        for line in open(p, encoding="utf-8"):
            for w in WORD.findall(code_and_comment(line)[0]):
                plain.setdefault(w, set()).add(os.path.relpath(p, top))
    for t, ns in sorted(targets.items()):
        if t in plain:
            both = [q for q in sorted(plain[t]) if any(q in plain.get(n, ()) for n in ns)]
            print("stands already:", t, ns, "in one file:" if both else "elsewhere:", (both or sorted(plain[t]))[:3])
    for p in files(top, (".antt",)):
        old = open(p, encoding="utf-8").read()
        new = turn_antt(old, names)
        if new != old:
            open(p, "w", encoding="utf-8").write(new)
    for p in files(top, (".rt",)):
        old = open(p, encoding="utf-8").read()
        new = turn_rt(old, names)
        if new != old:
            open(p, "w", encoding="utf-8").write(new)
    print(len(names), "names")


if __name__ == "__main__":
    main()
