#!/usr/bin/env python3
"""Counts the places of docs/DESIGN-PASS.md in crates/*/src of a commit (default: the working tree), and lists them with --list.

    tools/design_counts.py [COMMIT] [--list]

What it can't tell from text (whether two functions are twins in meaning, whether a loop's index is its only state) the page says."""
import collections
import re
import subprocess
import sys


def sources(commit):
    if commit:
        names = subprocess.run(["git", "ls-tree", "-r", "--name-only", commit, "crates"], capture_output=True, text=True, check=True)
    else:
        names = subprocess.run(["git", "ls-files", "crates"], capture_output=True, text=True, check=True)
    found = {}
    for name in names.stdout.split("\n"):
        if re.fullmatch(r"crates/\w+/(src/.*\.rt|proofs/.*\.antt)", name):
            if commit:
                text = subprocess.run(["git", "show", f"{commit}:{name}"], capture_output=True, text=True, check=True).stdout
            else:
                text = open(name).read()
            found[name] = text
    return found


# The comment of a number that stands for none, and the names of what a library has.
NONE_COMMENT = re.compile(
    r"\b(\d+|itself|in it) (where|behind)\b.*\b(none|no|not|last|term|another)\b|\bwhere there (is|are) none\b|; 0 ")
BY_HAND = re.compile(
    r"(same_|lesser$|greater$|later$|at_least_one$|copy$|wide$|row_number$|is_free$|is_true$|put_decimal$|put_text$|one_more$|cut_at$"
    r"|capital$)")
HEAD = re.compile(r"^( *)(?:pub |const |extern \"C\" )*fn (\w+)(?:<[^>]*>)?\(", re.M)


def functions(text):
    """name, parameters, result, clauses, body of each function."""
    for m in HEAD.finditer(text):
        at, depth = m.end(), 1
        while depth:
            depth += {"(": 1, ")": -1}.get(text[at], 0)
            at += 1
        brace = re.compile(rf"(?: \{{|^{m.group(1)}\{{)$", re.M).search(text, at)
        end = re.compile(rf"^{m.group(1)}\}}", re.M).search(text, brace.end())
        params = [p.strip() for p in re.split(r",\s*(?![^<\[(]*[\])>])", text[m.end():at - 1]) if p.strip()]
        between = text[at:brace.start()]
        result = re.match(r"\s*-> ([^\n]*)", between)
        yield m.group(2), params, result.group(1) if result else "", between, text[brace.end():end.start()]


def conjuncts(clauses):
    """The facts of a function's requires, split at the outer ×."""
    for m in re.finditer(r"requires\*?(?: \w+)? \{(.*?)\}(?=\s*(?:requires|ensures|$))", clauses, re.S):
        depth, part = 0, ""
        for ch in " ".join(m.group(1).split()) + "×":
            depth += ch in "(["
            depth -= ch in ")]"
            if ch == "×" and depth == 0:
                part = part.strip()
                while part.startswith("(") and part.endswith(")") and part.count("(") == part.count(")"):
                    inner = part[1:-1]
                    if inner.find(")") < inner.find("(") and "(" in inner:
                        break
                    part = inner.strip()
                yield part
                part = ""
            else:
                part += ch


def shape(body):
    """A body with its names and literals numbered as they come: equal for twins."""
    seen = {}
    words = re.findall(r"[A-Za-z_]\w*|\d+|[^\s\w]", re.sub(r"//[^\n]*", "", body))
    keep = {"let", "mut", "if", "else", "while", "for", "in", "return", "match", "loop", "as", "Some", "None", "Ok", "Err", "true", "false"}
    return tuple(w if w in keep or not re.match(r"\w", w) else seen.setdefault(w, f"#{len(seen)}") for w in words)


def main():
    commit = next((a for a in sys.argv[1:] if not a.startswith("-")), None)
    files = sources(commit)
    code = {n: t for n, t in files.items() if n.endswith(".rt")}
    points = collections.OrderedDict()

    def put(point, place):
        points.setdefault(point, []).append(place)

    facts, groups, shapes = collections.defaultdict(list), collections.defaultdict(list), collections.defaultdict(list)
    for name, text in code.items():
        crate = name.split("/")[1]
        for m in re.finditer(r"enum (\w+)[^{]*\{(.*?)^ *\}", text, re.M | re.S):
            body = re.sub(r"//[^\n]*", "", m.group(2))
            variants = re.findall(r"^    (\w+)(\(|\s*\{|,)", body, re.M)
            if len(variants) == 2 and any(v[1] != "," for v in variants):
                put("1 enums of the shape of Option or Result", f"{crate}::{m.group(1)}")
        for m in re.finditer(r"struct (\w+)[^{;]*\{(.*?)^ *\}", text, re.M | re.S):
            if re.search(r"^    (?:pub )?\w+: bool,", m.group(2), re.M):
                put("1 a flag with values beside it", f"{crate}::{m.group(1)}")
        for line in text.split("\n"):
            if re.match(r"\s*//", line):
                if NONE_COMMENT.search(line):
                    put("1 a number that stands for none (its comment)", f"{crate}: {line.strip()[:90]}")
                continue
            if re.search(r"\bnumber: (u32|\d+|FAULT|NO_ROOM|NO_REFUSAL|_)|\{ number, place \}|\bnumber,$", line):
                put("1 a refusal as a number", f"{crate}: {line.strip()[:80]}")
        for fname, params, result, clauses, body in functions(text):
            where = f"{crate}::{fname}"
            if re.search(r"^\s*(while|loop)\b", body, re.M):
                put("3 loops by while or loop", where)
                if re.search(r"^\s*\w+ [+-]= 1;", body, re.M):
                    put("3 of these with an index counted by hand", where)
            compares = re.match(r"(a: \w+|self), (b: \w+|other)", ", ".join(params)) and result == "bool"
            if BY_HAND.match(fname) or compares:
                put("4 equality, order, copies, conversions, printing by hand", where)
            for p in params:
                if p.endswith(": bool"):
                    put("7 a flag that picks a step", f"{where}({p})")
            arrays = [p for p in params if re.search(r"\[[^\]]*\]", p)]
            sizes = [p for p in params if re.fullmatch(r"(n|k|m|to|end|len|count|mid): (usize|u8)", p)]
            if arrays and sizes:
                put("6 an array or a slice with its length or its part beside it", f"{where}({'; '.join(arrays + sizes)})")
            for fact in set(conjuncts(clauses)):
                facts[(fact,)].append(where)
            plain = [p for p in params if not re.match(r"&?(mut )?self", p)]
            for i in range(len(plain) - 1):
                groups[(plain[i], plain[i + 1])].append(where)
            if len(shape(body)) > 24:
                shapes[shape(body)].append(where)
    for same in shapes.values():
        if len(same) > 1:
            put("2 functions of one shape", " ~ ".join(same))
    for (fact,), where in sorted(facts.items(), key=lambda x: -len(x[1])):
        if len(where) > 2:
            put("5 a fact in the contracts of three functions or more", f"{len(where)} × {fact}")
    for pair, where in sorted(groups.items(), key=lambda x: -len(x[1])):
        if len(where) > 3:
            put("5 neighbouring parameters of four functions or more", f"{len(where)} × {', '.join(pair)}")
    proofs = [t for n, t in files.items() if n.endswith(".antt")]
    for text in proofs:
        for m in re.finditer(r"^pub (\S+) : goal\.", text, re.M):
            put("8 answers to goals", m.group(1))
    for key, places in points.items():
        print(f"{len(places):5}  {key}")
        if "--list" in sys.argv and not key.startswith("8"):
            for p in places:
                print(f"           {p}")
    print(f"{sum(t.count(chr(10)) for t in proofs):5}  8 lines of proof files")


main()
