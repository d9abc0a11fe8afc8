#!/usr/bin/env python3
"""Spells the repository's own definitions and lemmas in snake case, below the folder given: once, after the kit's port.py.

A word that an .antt file declares (a definition, a lemma, a field, a constructor, a local function; but not what a function's own
proof declares) and that is in camel case or has hyphens gets underscores, in every .antt file and in the contracts of every .rt file. Types and modules keep their names, and
so does what a file imports from outside the repository. A name that would fall together with another word of a file where it
stands gets the ending "law": the lemma of the two. Prints what falls together even so, and writes nothing then.
"""

import collections
import os
import re
import sys

TOKEN = re.compile(r'[^\s(){}\[\]⟨⟩.,;:"«»@|\\]+|:')
WORD = re.compile(r"[^\s(){}.,;\"«»]+")
DECLARED = re.compile(r"^(\s*)((?:(?:pub|abbrev|unfoldable|private) )*)([^\s(){}:;,]+(?: [^\s(){}:;,]+)*) : ", re.M)
USE = re.compile(r"\b(?:ghost )?use ([^\s;{]+?)(?:\.\{([^}]*)\}|\.([^\s.{};]+))?(?: as [^\s;]+)?(?=[;\n])")
GHOST_USE = re.compile(r"\bghost use [^;]*;")
OF_FUNCTION = re.compile(r"/proofs/[^/]+/")
COMMENT = re.compile(r"--[^\n]*")
# Lemmas that are in snake case already, with the module that declares them, where a definition in camel case would meet them.
MET = {
    "by_lines": "Rattle.rehearsal.specs.Parts",
    "end_after": "Rattle.text_lex.specs.Piece",
    "first_on": "Rattle.machine_take.specs.Begun",
    "is_open": "Rattle.twophase.specs.Deadlock",
    "line_after": "Rattle.call_lines.specs.Forms",
    "line_word": "Rattle.read_classes.specs.Lines",
    "next_place": "Rattle.text_syntax.specs.Places",
    "same_flag": "Rattle.theory.specs.LockLaws",
}


def files(top):
    for folder, dirs, names in os.walk(os.path.join(top, "crates")):
        dirs[:] = sorted(d for d in dirs if d != "out")
        for name in sorted(names):
            if name.endswith((".rt", ".antt")):
                yield os.path.join(folder, name)


def snake(name):
    words = re.sub(r"(?<=[a-z0-9₀-₉])[A-Z]", lambda m: "_" + m[0].lower(), name)
    return re.sub(r"(?<=[^\W_'])-(?=[^\W_])|(?<=')-(?=\w)", "_", words)


def turns(name):
    return name[:1].islower() and snake(name) != name


def outside(text):
    """What a file imports from outside the repository."""
    found = set()
    for path, items, one in USE.findall(text):
        if re.match(r"Rattle\.(?!std\b|core\b|io\b|libc\b|os\b)", path):
            continue
        found.update(it.split(" as ")[0].strip() for it in (items or one).split(","))
    return found


def parts(text, is_rt):
    """The text cut into pieces: (whether it is antt, piece)."""
    if not is_rt:
        yield True, text
        return
    at = 0
    for m in re.finditer(r"//[^\n]*|\bghost use [^;]*;|\b(?:requires|ensures|ghost)\*?(?: \w+)? \{|#\[tactic[^\n]*", text):
        if m.start() < at:
            continue
        if m[0].startswith("//"):
            yield False, text[at : m.end()]
            at = m.end()
            continue
        end = m.end()
        if m[0].endswith("{"):
            deep = 1
            while deep:
                deep += (text[end] == "{") - (text[end] == "}")
                end += 1
        yield False, text[at : m.start()]
        yield True, text[m.start() : end]
        at = end
    yield False, text[at:]


def met_here(path, text):
    """The names of MET that stand in a file: where they are declared, or where they are imported from there."""
    module = "Rattle." + path.split("crates/")[1][:-5].replace("/", ".")
    found = {n for n, m in MET.items() if m == module}
    for m in re.finditer(r"\buse (\S+?)\.\{([^}]*)\}", text):
        found.update(n for n in m[2].split(", ") if MET.get(n) == m[1])
    return found


def spoken(line):
    """A line's names: without the paths of imports and without what stands after a dot."""
    line = re.sub(r"\buse [^\s{;]+", lambda m: " " if "{" in line else m[0].rpartition(".")[2], line)
    return TOKEN.findall(re.sub(r"\bRattle(?:\.[\w+]+)+|(?<=[\w')])\.[^\s(){}.,;]+", " ", line))


def turned(text, is_rt, turn, behind, remark):
    """The text with each name of its antt turned, by another rule behind a dot and in a comment, and the names that stood there."""
    out, used = [], set()
    for antt, piece in parts(text, is_rt):
        if not antt:
            out.append(re.sub(r"(?<=//)[^\n]*", lambda m: re.sub(r"[\w'-]+", lambda w: remark(w[0]), m[0]), piece))
            continue
        lines = []
        for line in piece.split("\n"):
            code, dash, rest = (line, "", "") if is_rt else line.partition("--")
            used.update(spoken(code))
            code = TOKEN.sub(lambda m: m[0] if m.string[: m.start()].endswith("tie.") else (behind if m.string[: m.start()].endswith(".") else turn)(m[0]), code)
            lines.append(code + dash + re.sub(r"[\w'-]+", lambda w: remark(w[0]), rest))
        out.append("\n".join(lines))
    return "".join(out), used


def plain(text):
    """The names of a .rt file's own text that a clause could mean: no function's, no module's, no path's."""
    code = "".join(x for a, x in parts(text, True) if not a)
    code = re.sub(r"//[^\n]*|(?:[.:]\s*)?\b\w+(?=\()|\bmod \w+|\buse [^;]*;|\w+::", " ", code)
    return set(re.findall(r"\w+", code))


def turn_all(texts, target):
    """Every text turned, and the pairs of names that fall together, each with a file."""
    back = collections.defaultdict(set)
    for n in target:
        back[target[n]].add(n)
    new, clashes = {}, {}
    for p, t in texts.items():
        is_rt, away = p.endswith(".rt"), outside(t)
        met = {} if is_rt else {n: n + "_law" for n in met_here(p, t)}
        turn = lambda n: met[n] if n in met else n if n in away else target.get(n, n)
        # What stands behind a dot in a function's proof is mostly a name that the check makes.
        of_function = bool(OF_FUNCTION.search(p))
        behind = (lambda n: target[n] if n in target and not target[n].endswith("_law") else n) if of_function else turn
        remark = lambda n: target[n] if n in target and "-" not in n else n
        new[p], used = turned(t, is_rt, turn, behind, remark)
        here = (used - set(met)) | (plain(t) if is_rt else set())
        for n in (used & set(target)) - away:
            for other in ({target[n]} | back[target[n]]) - {n}:
                if other in here:
                    clashes[n, other] = p
    return new, clashes


def main(top, *flags):
    texts = {p: open(p, encoding="utf-8").read() for p in files(top)}
    own = set()
    for p, t in texts.items():
        if p.endswith(".antt") and not OF_FUNCTION.search(p):
            for _, _, names in DECLARED.findall(COMMENT.sub("", t)):
                own.update(n for n in names.split() if turns(n))
    target = {n: snake(n) for n in own}
    _, clashes = turn_all(texts, target)
    lemmas = sorted({n for pair in clashes for n in pair if "-" in n and n in own})
    target.update({n: snake(n) + "_law" for n in lemmas})
    new, clashes = turn_all(texts, target)
    for (a, b), p in sorted(clashes.items()):
        print(f"{a} ~ {b}, as in {p}")
    if clashes:
        return 1
    for p, t in new.items():
        if t != texts[p]:
            with open(p, "w", encoding="utf-8") as f:
                f.write(t)
    print(f"{len(own)} names turned; with the ending law: {', '.join(lemmas)}")
    return 0


if __name__ == "__main__":
    sys.exit(main(*sys.argv[1:]))
