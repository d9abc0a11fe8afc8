#!/usr/bin/env python3
"""Turns the proofs of crates that walk the code by hand (Proof.antt) to invariants and answers, where the kit's check asks for them.

usage: python3 tools/turn-proofs.py NAME..     at the top, after the kit's port.py; the crates below must prove

Moves the old proofs of a crate to a folder of their own below the system's folder for temporary files, checks with holes, and writes
for each loop its invariant and measure, and for each goal that stays open the old answer, by the old and new names that
`rt check --generated FOLDER --old-names` lists. Prints what it can't turn: cycles of calls, joins of branches, helpers that name a place of
another form. Answers that stand already are left as they are: remove one to have it written again.
"""

import json
import os
import re
import shutil
import subprocess
import sys
import tempfile

def norm(s):
    return s.replace("-", "_")

# ---- the functions of all sources: their borrowed parameters and the names of their clauses
def closing(t, i):
    deep = 0
    for k in range(i, len(t)):
        deep += (t[k] in "({[") - (t[k] in ")}]")
        if not deep:
            return k + 1
    return len(t)

def functions(root, own=""):
    found = {}
    for folder, dirs, files in os.walk(root):
        dirs[:] = [d for d in dirs if d != "out"]
        for f in files:
            if not f.endswith(".rt"):
                continue
            t = re.sub(r"//[^\n]*", "", open(os.path.join(folder, f)).read())
            for m in re.finditer(r"\bfn (\w+)\s*(?:<[^>(]*>)?\(", t):
                end = closing(t, m.end() - 1)
                params = t[m.end():end - 1]
                muts = re.findall(r"(\w+): &", params)
                clauses = {"requires": [], "ensures": []}
                i = end
                while True:
                    k = re.compile(r"\s*(?:->\s*[^{;]*?(?=\s(?:requires|ensures)\b|\s*\{))?\s*(requires|ensures)\*?(?: (\w+))?\s*\{").match(t, i)
                    if not k:
                        break
                    clauses[k[1]].append(k[2] or "")
                    i = closing(t, k.end() - 1)
                it = (muts, clauses["requires"], clauses["ensures"])
                if f"/crates/{own}/" in folder + "/":
                    found[m[1]] = it
                else:
                    found.setdefault(m[1], it)
    return found

class Fn:
    def __init__(self, d):
        self.places, self.byname = {}, {}
        for p, new, arm in zip(d["places"], d["places_by_name"], d["arms"]):
            self.places[p[0]] = dict(parent=p[1], old=p[2][0], new=p[2][1], name=new, arm=arm)
            self.byname.setdefault(norm(p[0]), p[0])
        self.needs, self.new_needs = {}, {}
        self.need_list = []
        for (o, n), at in zip(d["needs"], d["asked_at"]):
            self.needs.setdefault(norm(o), (n, at[0]))
            self.new_needs.setdefault(norm(n), (n, at[0]))
            self.need_list.append((o, n, at[0]))
        self.loops = d["loops"]
        self.changed = d["changed"]

    def chain(self, place):
        out = []
        while place is not None and place in self.places:
            out.append(place)
            place = self.places[place]["parent"]
        return out

    def up(self, place, n):
        ch = self.chain(place)
        return ch[min(n, len(ch) - 1)] if ch else None

    def label(self, place, top, lab):
        """The place that has an old label, looked for from a place upwards, then from another."""
        for l in dict.fromkeys((norm(lab), re.sub(r"_lem(\d*)$", r"\1", norm(lab)))):
            for ch in (self.chain(place), self.chain(top)):
                for p in ch:
                    if norm(self.places[p]["old"]).lower() == l.lower():
                        return p
        l0 = re.sub(r"_lem$", "", re.sub(r"\d+$", "", norm(lab)))
        l0 = "shared_slice_known" if l0 == "slice_known" else l0
        for ch in (self.chain(place), self.chain(top)):
            c = [p for p in ch if re.sub(r"\d+$", "", norm(self.places[p]["old"])) == l0]
            if c:
                return c[0]
        return None

NOT = r"(c\.[^\s()]*-not-[^\s()]*\.(?:true|false))"

def unnot(body):
    """A test of a negation says what its operand is."""
    body = re.sub(rf"\(not-(?:true|false) _ {NOT}\)|not-(?:true|false) _ {NOT}(?![^\s()])", lambda m: "\x01" + (m[1] or m[2]), body)
    body = re.sub(rf"(?<![\x01\w.]){NOT}(?![^\s(),])", r"(ap not \1)", body)
    return body.replace("\x01", "")

def as_record(body, clauses):
    """A tuple, or a term of a product, as a record of clauses."""
    t = body.rstrip()
    i = len(t) - 1
    if t.endswith(")"):
        deep = 0
        while i >= 0:
            deep += (t[i] in ")]}") - (t[i] in "([{")
            if not deep:
                break
            i -= 1
        before = t[:i].rstrip()
        if before == "" or before.endswith((" in", "\n", "in")):
            inner, parts, deep, k = t[i + 1:-1], [], 0, 0
            for j, ch in enumerate(inner):
                deep += (ch in "([{") - (ch in ")]}")
                if ch == "," and not deep:
                    parts.append(inner[k:j]); k = j + 1
            parts.append(inner[k:])
            parts = [x.strip() for x in parts if x.strip()]
            while parts and len(parts) < len(clauses) and parts[-1].startswith("(") and closing(parts[-1], 0) == len(parts[-1]):
                inner, more, deep, k = parts[-1][1:-1], [], 0, 0
                for j, ch in enumerate(inner):
                    deep += (ch in "([{") - (ch in ")]}")
                    if ch == "," and not deep:
                        more.append(inner[k:j]); k = j + 1
                more.append(inner[k:])
                if len(more) < 2:
                    break
                parts[-1:] = [x.strip() for x in more if x.strip()]
            if len(parts) == len(clauses):
                return t[:i] + "record {\n      " + ";\n      ".join(f"{n} = {x}" for n, x in zip(clauses, parts)) + ";\n    }"
    lets = re.match(r"((?:\s*let (?:.|\n)*? in\n)*)((?:.|\n)*)$", t)
    head, last = lets[1], lets[2].strip()
    return f"{head}\n    let known = {last} in record {{ " + "; ".join(f"{n} = known.{k}" for k, n in enumerate(clauses)) + " }"

START = {"args", "requires", "ranges", "type_inv", "lifetimes", "well_formed"}
PATH = re.compile(r"(?<![^\s(){}\[\],;])([A-Za-z_][\w'₀-₉-]*)((?:\.[^\s(){}\[\].,;:\"«»]+)*)(?![^\s(){}\[\].,;:\"«»])")

class Body:
    def __init__(self, fn, funs, own, goal, proof=None, inline=False):
        self.fn, self.funs, self.own, self.goal = fn, funs, own, goal
        self.warn, self.bare, self.kept = [], set(), []
        self.proof, self.inlining = proof, inline

    def applied(self, text, roots):
        """Puts a helper's text in place of its call at a place, where the place's record cannot be named."""
        if not self.proof:
            return text
        for n, t, _ in self.proof.helpers:
            h = self.proof.single(n, t)
            if not h:
                continue
            place, sig, more, body, binder, var = h
            pat = re.compile(rf"(?<![^\s(){{}}\[\],;]){re.escape(n)} ([A-Za-z_][\w'₀-₉-]*)((?:\.before)*)(?![^\s(){{}}\[\],;])")
            def put(m):
                if m[1] not in roots:
                    return m[0]
                top, at, new = roots[m[1]]
                p = place if place in self.fn.chain(top) else self.fn.up(at, m[2].count(".before"))
                if not self.inlining and not (self.goal is None and p != top):
                    said = f"{n} (goal.at.{self.goal} {new}).{self.fn.places[p]['name']}" if self.goal else f"{n} {new}"
                    self.kept.append(said)
                    return f"\x00{len(self.kept) - 1}\x00"
                ty = self.turn(sig, {**roots, binder: (top, p, new)})
                bd = self.turn(body, {**roots, var: (top, p, new)})
                self.inlined = True
                lam = f"λ {' '.join(more)}. " if more else ""
                one = lambda x: re.sub(r"\s*\n\s*", " ", x.strip())
                self.kept.append(f"(let known : {one(ty)} = {lam}{one(bd)} in known)")
                return f"\x00{len(self.kept) - 1}\x00"
            text = pat.sub(put, text)
        return text

    def turn(self, text, roots):
        roots = dict(roots)
        while True:
            m = re.search(r"let ([A-Za-z_][\w'₀-₉-]*) = ([A-Za-z_][^\s()]*\.given) in(?:\n\s*| )", text)
            if not m:
                for k in re.finditer(r"let ([A-Za-z_][\w'₀-₉-]*) = ([A-Za-z_][\w'₀-₉-]*(?:\.before)*\.[^\s().]+) in(?:\n\s*| )", text):
                    if not k[2].endswith(".before") and re.search(rf"(?<![\w.'-]){re.escape(k[1])}\.(?:ensures\.\d|new\.\d|type-inv|requires\.\d)", text[k.end():]):
                        m = k
                        break
            if not m:
                break
            rest = re.sub(rf"(?<![^\s(){{}}\[\],;]){re.escape(m[1])}(?=\.)", lambda _: m[2], text[m.end():])
            text = text[:m.start()] + rest
        names = set(roots) | set(re.findall(r"let ([A-Za-z_][\w'₀-₉-]*) =", text))
        at = 0
        while True:
            m = re.compile(r"\(λ ([A-Za-z_][\w'₀-₉-]*(?: [A-Za-z_][\w'₀-₉-]*)*)\. |\(λ \(([A-Za-z_][\w'₀-₉-]*) : ").search(text, at)
            if not m:
                break
            end = closing(text, m.start())
            part = text[m.start():end]
            for v in (m[1] or m[2]).split():
                if v in names:
                    part = re.sub(rf"(?<![\w'₀-₉.-]){re.escape(v)}(?![\w'₀-₉-])", v + "₁", part)
            text = text[:m.start()] + part + text[end:]
            at = m.start() + 2
        alias = re.compile(r"let ([A-Za-z_][\w'₀-₉-]*) = ([A-Za-z_][\w'₀-₉-]*)((?:\.before)*) in(?:\n\s*| )")
        out, pos = "", 0
        for m in iter(lambda: alias.search(text, pos), None):
            if m[2] not in roots:
                out += self.paths(text[pos:m.end()], roots)
                pos = m.end()
                continue
            out += self.paths(text[pos:m.start()], roots)
            top, place, new = roots[m[2]]
            roots[m[1]] = (top, self.fn.up(place, m[3].count(".before")), new)
            pos = m.end()
        return out + self.paths(text[pos:], roots)

    def paths(self, text, roots):
        text = self.applied(text, roots)
        text = PATH.sub(lambda m: self.one(m, roots), text)
        return re.sub("\x00(\\d+)\x00", lambda m: self.kept[int(m[1])], text)

    def one(self, m, roots):
        if m[1] not in roots:
            return m[0]
        top, place, new = roots[m[1]]
        fields = m[2].split(".")[1:]
        n = 0
        while fields and fields[0] == "before":
            n += 1
            fields.pop(0)
        p = self.fn.up(place, n)
        if not fields:
            name = self.fn.places[p]["name"] if p else "UNKNOWN"
            self.bare.add(name)
            if not self.goal:
                if p != top:
                    self.warn.append(f"bare place {name} in a helper")
                return new if p == top else f"{new}.{name}"
            return f"(goal.at.{self.goal} {new}).{name}"
        f = norm(fields[0])
        callee = None
        if f in START:
            fields[0] = f
            if f == "requires":
                callee = self.own
        else:
            l = self.fn.label(p, top, f)
            if l is None:
                self.warn.append(f"{m[0]}: no label {f} at {place} -{n}")
            else:
                fields[0] = self.fn.places[l]["new"]
                best = None
                for q in self.fn.chain(top):
                    arm = self.fn.places[q]["arm"]
                    for new_field, old_label, path in (arm[2] if arm else []):
                        if norm(old_label) == norm(self.fn.places[l]["old"]) and [norm(x) for x in fields[1:1 + len(path)]] == [norm(x) for x in path]:
                            if best is None or len(path) > len(best[2]):
                                best = (arm[0], new_field, path)
                    if best:
                        fields = [best[0], best[1]] + fields[1 + len(best[2]):]
                        break
            callee = re.sub(r"_lem$", "", re.sub(r"\d+$", "", f.lower()))
            if callee not in self.funs:
                callee = f.lower()
        k = 1 if f != "requires" else 0
        if callee in self.funs and len(fields) > k + 1 and fields[k + 1].isdigit():
            muts, req, ens = self.funs[callee]
            i = int(fields[k + 1])
            if fields[k] == "new":
                n = k + 1
                while n < len(fields) and fields[n] == "1":
                    n += 1
                if n < len(fields) and fields[n] == "0" and n - k - 1 < len(muts):
                    fields[k + 1:n + 1] = [muts[n - k - 1]]
            elif fields[k] in ("ensures", "requires") and len(names := (ens if fields[k] == "ensures" else req)) > 1:
                n, at = k + 1, 0
                while n < len(fields) and fields[n] == "1" and at < len(names) - 1:
                    at += 1
                    n += 1
                if at < len(names) - 1 and n < len(fields) and fields[n] == "0":
                    fields[k + 1:n + 1] = [names[at]]
                elif at == len(names) - 1:
                    fields[k + 1:n] = [names[at]]
                elif n == len(fields) and at:
                    head = ".".join([new] + fields[:k + 1])
                    return "(" + ", ".join(f"{head}.{x}" for x in names[at:]) + ")"
        fields = [{"type-inv": "type_inv", "own-val": "own_val"}.get(x, x) for x in fields]
        return ".".join([new] + fields)

def blocks_of(text):
    """(head comment, uses, blocks): a block is (comment lines, lines)"""
    lines = text.split("\n")
    head, uses, blocks = [], [], []
    comment, cur = [], None
    def flush():
        nonlocal cur
        if cur:
            while cur[1] and not cur[1][-1].strip():
                cur[1].pop()
            blocks.append(cur)
        cur = None
    for i, l in enumerate(lines):
        if l.startswith("use "):
            flush(); uses.append(l); comment = []
        elif l.startswith("--"):
            flush()
            (comment if uses or blocks else head).append(l)
        elif not l.strip():
            if cur:
                nxt = next((x for x in lines[i + 1:] if x.strip()), "")
                if nxt.startswith(" "):
                    cur[1].append(l)
                else:
                    flush()
        else:
            if cur is None:
                cur = (comment, [l]); comment = []
            else:
                cur[1].append(l)
    flush()
    return head, uses, blocks

BINDER = re.compile(r"\(([\w'₀-₉ -]+) : tie\.([^\s()]+)((?: (?:invariant|decreases)[\w-]*)*)\)")
ARROW = re.compile(r"(?<![(\w])tie\.([^\s()]+)((?: (?:invariant|decreases)[\w-]*)*)")

def name_of(block):
    m = re.match(r"(?:(?:abbrev|pub|unfoldable|data|record|module) )*(\S+)", block[1][0])
    return m[1]

class Proof:
    def __init__(self, text, fn, funs, own, path):
        self.fn, self.funs, self.own, self.path = fn, funs, own, path
        self.head, self.uses, self.blocks = blocks_of(text)
        self.warn = []
        self.invariants, self.goals, self.helpers = [], {}, []
        self.read()
        self.by_position()

    def read(self):
        for b in self.blocks:
            t = "\n".join(b[1])
            n = name_of(b)
            m = re.match(r"abbrev (?:pub )?(invariant|decreases)-(\S+) : tie\.(\S+)\n", t)
            if m:
                self.invariants.append((m[1], m[2], m[3], t[m.end():], b[0]))
                continue
            if re.search(r": \{M : Type 1\} → statement M|: statement\b", t.split("\n")[0] + (t.split("\n")[1] if "\n" in t else "")) or "tie.close" in t:
                self.final = t
                continue
            m = re.match(r"(?:pub )?(\S+) :\s+tie\.Need-(\S+)((?:\s+(?:invariant|decreases)[\w-]*)*)\s*\n", t)
            if m:
                key = norm(m[2])
                key2 = re.sub(r"^overflow_", "", key)
                found = self.fn.needs.get(key) or self.fn.needs.get(key2) or self.fn.new_needs.get(key)
                if found:
                    new, place = found
                    self.goals[new] = (m[1], t[m.end():], place, b[0])
                else:
                    self.warn.append(f"no need {m[2]}")
                continue
            self.helpers.append((n, t, b[0]))

    def by_position(self):
        """The answers that stand in the last term itself, by their place in it."""
        t = getattr(self, "final", "")
        m = re.search(r"tie\.spec\b(.*)\)\s*$", t, re.S)
        if not m:
            return
        args, i, text = [], 0, m[1]
        while i < len(text):
            if text[i].isspace():
                i += 1
            elif text[i] in "([{":
                k, deep = i, 0
                while True:
                    deep += (text[k] in "([{") - (text[k] in ")]}")
                    k += 1
                    if not deep:
                        break
                args.append(text[i:k]); i = k
            elif text.startswith("--", i):
                i = text.find("\n", i)
            else:
                k = re.compile(r"[^\s(){}\[\]]+").match(text, i)
                if not k:
                    break
                args.append(k[0]); i = k.end()
        args = [a for a in args if not re.match(r"(invariant|decreases)-", a)]
        needs = self.fn.need_list
        if len(args) != len(needs):
            # the requirements of calls alone
            names = {v[0]: v[1] for v in self.goals.values()}
            asks = lambda a: "κs" in (a if a[0] == "(" else names.get(a, "")).split("\n")[0].split("=")[0].split(".")[0]
            a2 = [a for a in args if asks(a)]
            n2 = [n for n in needs if re.search(r"-requires(-\d+)?$", n[0])]
            if len(a2) == len(n2):
                args, needs = a2, n2
            else:
                if any(a.startswith("(") and not re.fullmatch(r"\(λ c(?: κs)?\. (search rules|omega arith|refl)\)", a) for a in args):
                    self.warn.append(f"{len(args)} terms and {len(needs)} needs: answers within the last term are not read")
                return
        for a, (old, new, place) in zip(args, needs):
            if new in self.goals:
                continue
            m = re.fullmatch(r"\(λ (\w+)((?: [\w']+)*)\.(\s.*)\)", a, re.S)
            if m:
                if re.fullmatch(r"\s*(search rules|omega arith|refl)\s*", m[3]):
                    continue
                self.goals[new] = ("NONAME", f"NONAME {m[1]}{m[2].replace(' κs', '')} ={m[3]}", place, [])
            elif a[0] not in "([{":
                known = [v for v in self.goals.values() if v[0] == a]
                if known:
                    self.goals[new] = (a, known[0][1], place, [])

    def single(self, n, t):
        """A helper of one clause over one place: (place, type after it, other arguments, body, its binder, its variable)."""
        m = re.match(rf"(?:abbrev )?{re.escape(n)} :\s+\((\w[\w'₀-₉-]*) : tie\.([^\s()]+)(?: (?:invariant|decreases)[\w-]*)*\)\s*→(.*?)\n{re.escape(n)} (\S+)((?: [^=\s{{}}()]+)*) =(\s.*)$", t, re.S)
        if not m or re.search(rf"\n{re.escape(n)} ", m[6]) or "unfolding" in m[3] or "\n  where" in m[6]:
            return None
        p = self.fn.byname.get(norm(m[2]))
        return (p, m[3], m[5].split(), m[6], m[1], m[4]) if p else None

    def invariant_file(self):
        if not self.invariants:
            return None
        out = []
        for kind, what, tie, body, comment in self.invariants:
            # which loop
            old = re.sub(r"^(invariant|decreases)-", "", tie)
            k = next((i for i, l in enumerate(self.fn.loops) if norm(l[0][0]) == norm(old)), None)
            if k is None:
                self.warn.append(f"no loop {old}")
                continue
            new, names = self.fn.loops[k][0][1], self.fn.loops[k][1]
            changed = self.fn.changed[k]
            m = re.match(rf"{kind}-{re.escape(what)}((?: [^=\s]+)*) =(\s.*)", body, re.S)
            if not m:
                self.warn.append(f"invariant {what} has another form")
                continue
            binders = m[1].split()
            want = [(f"l.initial.{v}" if c else f"l.{v}") for v, c in zip(names, changed)] + [f"l.{v}" for v, c in zip(names, changed) if c]
            if len(want) < len(binders):
                # a binder that the new form has not, and that the text does not use
                base = lambda b: b.rstrip("₀₁₂'")
                binders = [b for b in binders if b == "_" or base(b) in names or re.search(rf"(?<![\w'₀-₉]){re.escape(b)}(?![\w'₀-₉])", m[2])]
            if len(want) != len(binders):
                self.warn.append(f"invariant {what}: {len(binders)} binders, {len(want)} wanted: {binders} {names} {changed}")
                continue
            sub = {b: w for b, w in zip(binders, want) if b != "_"}
            text = PATH.sub(lambda m: sub[m[1]] + m[2] if m[1] in sub else m[0], m[2])
            out += comment + [f"abbrev pub {kind}-{new} : goal.{kind}-{new}", f"{kind}-{new} l ={text}", ""]
        body = "\n".join(out)
        need = self.closure(body)
        pre = []
        for n, t, c in self.helpers:
            if n in need:
                pre += c + [t if re.match(r"(abbrev )?pub ", t) else re.sub(r"^(abbrev |unfoldable )?", lambda m: (m[1] or "") + "pub ", t, count=1), ""]
        self.in_invariants = need
        return "\n".join(self.use_lines("Given", False) + [""] + pre + out).rstrip() + "\n"

    def closure(self, text):
        need, again = set(), True
        while again:
            again = False
            for n, t, c in self.helpers:
                if n not in need and re.search(rf"(?<![^\s(){{}}\[\],;]){re.escape(n)}(?![^\s(){{}}\[\],;.])", text + "\n" + "\n".join(x[1] for x in self.helpers if x[0] in need)):
                    need.add(n); again = True
        return need

    def use_lines(self, what, answers, extra=()):
        keep = []
        for u in self.uses:
            if re.search(r"\.(Statement|Tie)\b", u):
                continue
            keep.append(u)
        keep.append(f"use {self.path}.{what} as goal")
        if extra:
            keep.append(f"use {self.path}.Goals.{{{', '.join(sorted(extra))}}}")
        return keep

    def helper(self, n, t, comment):
        """A helper with its places' names."""
        extra = set()
        roots = {}
        def place(old):
            p = self.fn.byname.get(norm(old))
            return p
        def binder(m):
            p = place(m[2])
            if p is None:
                self.warn.append(f"helper {n}: no place {m[2]}")
                return m[0]
            name = self.fn.places[p]["name"]
            extra.add(name)
            for b in m[1].split():
                roots[b] = (p, p, b)
            return f"({m[1]} : {name})"
        # the signature ends where the clause begins
        s = re.search(rf"\n(?=(?:unfolding [^\n]*\n)?{re.escape(n)}(?: |$))", t)
        sig, rest = (t[:s.start()], t[s.start():]) if s else (t, "")
        positional = []
        for m in re.finditer(r"\(([\w'₀-₉ -]+) : (?:tie\.([^\s()]+))?|(?<![(\w.])tie\.([^\s()]+)(?: (?:invariant|decreases)[\w-]*)* →", sig):
            if m[3]:
                positional.append(place(m[3]))
            else:
                positional += [place(m[2]) if m[2] else None] * len(m[1].split())
        sig2 = BINDER.sub(binder, sig)
        def arrow(m):
            p = place(m[1])
            if p is None:
                self.warn.append(f"helper {n}: no place {m[1]}")
                return m[0]
            extra.add(self.fn.places[p]["name"])
            return self.fn.places[p]["name"]
        sig2 = ARROW.sub(arrow, sig2)
        b = Body(self.fn, self.funs, self.own, None, self)
        sig2 = b.turn(sig2, roots)
        roots2 = dict(roots)
        lhs = re.search(rf"^{re.escape(n)}((?: [^=\s]+| \{{[^}}]*\}})*) =", rest, re.M)
        if lhs:
            args = [a for a in re.sub(r"\{[^}]*\}", "", lhs[1]).split()]
            for a, p in zip(args, positional):
                if p is not None:
                    roots2[a] = (p, p, a)
        rest2 = b.turn(rest, roots2)
        self.warn += [f"{n}: {w}" for w in b.warn]
        return comment + [sig2 + rest2, ""], extra

    def answers_file(self, goals):
        out, extra, text = [], set(), ""
        missing = []
        done = set()
        for g in goals:
            clauses = None
            if g not in self.goals and "-clause-" in g and g.split("-clause-")[0] in self.goals:
                g = g.split("-clause-")[0]
                if g in done:
                    continue
                done.add(g)
                k = re.match(r"(.*?)-requires(-|$)", g)
                called = self.own
                if k and not g.startswith("returns"):
                    called = next((n for n in sorted(self.funs, key=len, reverse=True) if k[1] == n or k[1].startswith(n + "-")), None)
                clauses = self.funs.get(called, ([], [], []))[1 if k else 2]
            if g not in self.goals:
                missing.append(g)
                continue
            name, t, place, comment = self.goals[g]
            m = re.match(rf"((?:unfolding [^\n]*\n)*){re.escape(name)} (\S+)((?: [^=\s]+)*) =(\s.*)", t, re.S)
            if not m:
                self.warn.append(f"goal {g}: another form: {t[:60]!r}")
                missing.append(g)
                continue
            more = m[3].split()
            b = Body(self.fn, self.funs, self.own, g, self, bool(self.fn.places[place]["arm"]))
            body = b.turn(m[4], {m[2]: (place, place, m[2])})
            self.warn += [f"{g}: {w}" for w in b.warn]
            # a name of a goal that another answer cites
            for g2, (name2, *_) in self.goals.items():
                if name2 != g2:
                    body = re.sub(rf"(?<![^\s(){{}}\[\],;]){re.escape(name2)}(?= c\b| \()", g2, body)
            body = unnot(body)
            more = [x for x in more if x != "κs"]
            if clauses:
                body = as_record(body, clauses)
            lhs = f"{g} {m[2]}" + "".join(" " + x for x in more)
            out += comment + [f"pub {g} : goal.{g}", f"{m[1]}{lhs} ={body}", ""]
            text += body
        need = self.closure(text)
        pre = []
        inv = getattr(self, "in_invariants", set())
        shared = sorted(n for n in need if n in inv)
        for n, t, c in self.helpers:
            if n in need and n not in inv:
                p, e = self.helper(n, t, c)
                pre += p
                extra |= e
        uses = self.use_lines("Goals", True, extra)
        if shared:
            uses.append(f"use {self.path}.Invariants.{{{', '.join(shared)}}}")
        body = "\n".join(pre + out)
        body = body.replace(".type-inv", ".type_inv")
        for v in set(re.findall(r"let (\S+) = c\.wrapping_[\w-]+ in", body)):
            body = re.sub(rf"(?<![\w.]){re.escape(v)}\.ensures(?!\.)", f"{v}.ensures.value", body)
        body = re.sub(r"(\.wrapping_[\w-]+\.ensures)(?!\.value)", r"\1.value", body)
        brought = " ".join(uses)
        for word, line in (("not", "mathlib.Core.Bool.{not}"), ("ap", "mathlib.Core.Path.{ap}")):
            if "(ap not " in body and not re.search(rf"[{{ ]{word}[,}}]", brought):
                uses.append("use " + line)
        return "\n".join(self.head + uses + ["", body]).rstrip() + "\n", missing


# ---- a crate


def check(top, *words):
    return subprocess.run(["rt", "check", *words], cwd=top, stdout=subprocess.PIPE, stderr=subprocess.STDOUT, text=True).stdout


def old_proofs(top, aside):
    """Moves the old proofs aside, once, with the names of their places and goals."""
    if os.path.isdir(aside):
        return True
    os.makedirs(aside)
    said = check(top, "--generated", aside, "--old-names")
    if not os.path.exists(os.path.join(aside, "names.json")):
        print(said[-2000:])
        shutil.rmtree(aside)
        return False
    for folder, dirs, files in os.walk(os.path.join(top, "proofs")):
        if "Proof.antt" in files:
            to = os.path.join(aside, os.path.relpath(folder, os.path.join(top, "proofs")))
            os.makedirs(to, exist_ok=True)
            shutil.move(os.path.join(folder, "Proof.antt"), os.path.join(to, "Proof.antt"))
    return True


def read_proofs(root, crate, aside):
    with open(os.path.join(aside, "names.json")) as f:
        names = json.load(f)
    funs = functions(os.path.join(root, "crates"), crate)
    proofs = {}
    for folder, dirs, files in os.walk(aside):
        if "Proof.antt" not in files:
            continue
        rel = os.path.relpath(folder, aside).replace("/", ".")
        kind = names.get(f"Rattle-{crate}-proofs.{rel}.Lts")
        if kind is None:
            print(f"{rel}: no names, perhaps a cycle of calls: by hand")
            continue
        with open(os.path.join(folder, "Proof.antt")) as f:
            proofs[rel] = Proof(f.read(), Fn(kind), funs, rel.split(".")[-1], f"Rattle.{crate}.proofs.{rel}")
    return proofs


def write(top, rel, name, text):
    folder = os.path.join(top, "proofs", rel.replace(".", "/"))
    os.makedirs(folder, exist_ok=True)
    with open(os.path.join(folder, name), "w") as f:
        f.write(text)


def answer(top, said, proofs, tried, first):
    """Writes the answers that a check asks for, and says for how many functions."""
    wrote = 0
    for m in re.finditer(r"^fn \S+?: no proof: (.*)", said, re.M):
        a = re.search(r"expected answers in \./proofs/(\S+?)/Answers\.antt; `search` did not prove ((?:`[^`]+`(?:, )?)+)", m[1])
        rel = a and a[1].replace("/", ".")
        if rel not in proofs or first and os.path.exists(os.path.join(top, "proofs", a[1], "Answers.antt")):
            continue
        goals = tried.setdefault(rel, [])
        new = [g for g in re.findall(r"`([^`]+)`", a[2]) if g not in goals]
        if not new:
            continue
        goals += new
        text, missing = proofs[rel].answers_file(goals)
        if missing:
            print(f"{rel}: no old answer for {', '.join(missing)}")
        if len(missing) < len(goals):
            write(top, rel, "Answers.antt", text)
            wrote += 1
    return wrote


def turn(root, crate):
    top = os.path.join(root, "crates", crate)
    aside = os.path.join(tempfile.gettempdir(), "turn-proofs", crate)
    if not old_proofs(top, aside):
        return
    proofs = read_proofs(root, crate, aside)
    for rel, p in proofs.items():
        p.in_invariants = set()
        text = p.invariant_file()
        if text and "abbrev pub" in text and not os.path.exists(os.path.join(top, "proofs", rel.replace(".", "/"), "Invariants.antt")):
            write(top, rel, "Invariants.antt", text)
    tried, said = {}, ""
    for n in range(6):
        said = check(top, "--allow-holes")
        if not answer(top, said, proofs, tried, n == 0):
            break
    for rel, p in proofs.items():
        for w in dict.fromkeys(p.warn):
            print(f"{rel}: {w}")
    print("\n".join(l[:300] for l in said.split("\n") if re.match(r"\./.*error|fn \S+: (?!no holes|proved)|holes=", l)))


if __name__ == "__main__":
    for name in sys.argv[1:]:
        print(f"{name}:", flush=True)
        turn(os.getcwd(), name)
