#!/usr/bin/env python3
"""count_places.py POINT [REVISION] [--totals] [--library DIR..]: counts the places where the code is in an older form.

POINT is a number from 1 to 8, or `all`; docs/DESIGN-PASS.md says what each point is. REVISION is a commit; without it the files are read as they lie in the
checkout. Printed is a line for each place, `POINT FILE:LINE KIND: WHAT`, then the total of each kind, and of the point with the number in each crate; with
--totals only these. With --library point 8 also names lemmas that state what a lemma in the proof files under a DIR states. A place is found by its form, as
`rt fmt` lays code out, and not by a list of names or lines.
"""
import argparse
import re
from collections import Counter, defaultdict
from difflib import SequenceMatcher

from read_items import At, answers, files, items, lemmas, loops, stated_in

FLAG = r"(?:refusal|kind|fits|more|ok|valid|found|present|readable|has\w*)"
NUMBER = r"(?:u8|u16|u32|u64|Word)"
TEST = r"if [^{]*(?:!=|==|\.has_\w+) ?[^{]*\{ return false; \} "


def point1(code):
    """Own Option or Result, a flag with a value beside it, numbers for kinds and refusals."""
    flags = {(s.crate, s.name): [p for p, t in s.fields if re.fullmatch(FLAG, p) and re.fullmatch("bool|" + NUMBER, t)] for s in code if len(s.fields) > 1}
    flagged = {s for (_, s), found in flags.items() if any(not re.match("has|readable|kind", p) for p in found)}
    options = {s.name for s in code if s.sort == "enum" and len(s.body) == 2 and sum("(" in t for _, t in s.body) == 1}
    for s in (s for s in code if s.sort != "fn"):
        if s.name in options:
            yield s, "own Option", f"enum {s.name}"
        for p in flags.get((s.crate, s.name), []) if s.sort == "struct" else []:
            yield s, "flag or refusal with a value beside it", f"struct {s.name}, {p}"
        for n, t in s.body if s.sort == "enum" and len(s.body) > 2 else []:
            if re.fullmatch(rf" +\w+\({NUMBER}\),", t):
                yield At(s.file, n), "number for a refusal", f"enum {s.name}, {t.strip()}"
    for f in (f for f in code if f.sort == "fn"):
        numbered = f.result == "u32" and "refusal" in f.name + f.clauses + f.comment
        kinds = {"answer with a flag or refusal": f.result in flagged, "own Option": {f.result, *f.params.values()} & options, "refusal as a number": numbered,
                 "fills a buffer and answers whether": f.result == "bool" and re.match("put.*&mut", f.name + f.sign)}
        yield from ((f, kind, f"fn {f.name} -> {f.result}") for kind in kinds if kinds[kind])
        for p, t in f.params.items():
            if re.fullmatch(NUMBER, t) and (p in ("kind", "refusal") or "refus" in f.name):
                yield f, "parameter that is a kind or refusal", f"fn {f.name}, {p}: {t}"
        for n, t in f.body:
            if (re.search(r"\b(?:\w*refused|not_\w+|no_\w+|Stopped)\((?:\w+, )?\d+\)|\brefusal: \d+|(?<!\w)refus\w* (?:[=!]=|>) \d+", t)
                    or numbered and re.fullmatch(r"\s+(?:return )?\d+;?|.*\{ \d+ \} else \{ \d+ \}", t)):
                yield At(f.file, n), "literal for a refusal", t.strip()
            elif re.search(rf"\w+\.(?!kind){FLAG}\b(?!\()(?! =)", t):
                yield At(f.file, n), "flag or refusal read", t.strip()


def point2(code):
    """Twins: what stands in two crates that differ in a number, and functions of one crate whose bodies are nearly the same."""
    pairs, crates = defaultdict(list), defaultdict(list)
    for s in code:
        pairs[tuple(re.sub(r"\d+", "#", x) for x in (s.crate, s.file, s.owner, s.name, s.sort))].append(s)
        tokens = re.findall(r"b?\"[^\"]*\"|b'.'|[a-zA-Z_]\w*|\d+|[^\s\w]", s.text)
        if s.sort == "fn" and "extern" not in s.sign and len(tokens) >= 20:
            crates[s.crate].append((s, tokens))
    for group in pairs.values():
        if len({s.crate for s in group}) > 1:
            yield group[-1], "stands in two widths", f"{group[-1].sort} {group[-1].name}, and in {group[0].crate}"
    for fs in crates.values():
        for i, (f, mine) in enumerate(fs):
            ratio, other = max(((SequenceMatcher(None, theirs, mine, autojunk=False).ratio(), g.name) for g, theirs in fs[:i]), default=(0, ""))
            if ratio > 0.755:
                yield f, "twin within a crate", f"fn {f.name}, {100 * ratio:.0f} per cent as {other}"


def point3(code):
    """Loops that count an index by hand."""
    for f in code:
        for at, head, name, body in loops(f):
            if name and ".." in re.sub(r"\[[^\]]*\]", "", head) and re.search(rf"(?<!\w){name}\b", body) or re.match("while (?!let).*[<>]", head) and any(
                    re.search(rf"\b{v} [-+]?= ", body) for v in re.findall(r"[a-z]\w*", head[6:])):
                yield at, "for with an index" if name else "while with an index", f"fn {f.name}: {head}"
            elif any(re.search(rf"\[{v}\.\.", body) for v in re.findall(r"(\w+) \+= ", body)):
                yield at, "for with an index of its own", f"fn {f.name}: {head}"


def point4(code):
    """Equality, order, copying, conversion, operators and printing by hand."""
    for f in (f for f in code if f.sort == "fn"):
        looped, flat = False, re.sub(r"let \w+ = [\w.]+(\[\d+\])?; ", "", f.flat)
        for at, head, _, inner in loops(f):
            steps = [x.strip() for x in inner.split("\n")]
            looped = f.result == "bool" and "!=" in inner and "return false" in inner
            plain = all(re.match(r"let \w+ = [\w+ \[\]]+;", x) for x in steps[:-1])
            kinds = {"equality": looped, "copying": plain and re.fullmatch(r"\w+\[[\w +]+\] = [\w+ \[\]]+;", steps[-1]),
                     "conversion": plain and re.fullmatch(r"\w+\[\w+\] = .*(?:reduce\(|\.value\(\)).*;", steps[-1])}
            yield from ((at, kind, f"fn {f.name}: {head}") for kind in kinds if kinds[kind])
        for n, t in f.body:
            kinds = {"order": re.search(r"if (\w+) [<>] (\w+) \{ (\1|\2) \} else \{ (\1|\2) \}", t),
                     "conversion": re.search(r"if .* \{ [01] \} else \{ [01] \}$", t) and "refus" not in f.name}
            yield from ((At(f.file, n), kind, f"fn {f.name}: {t.strip()}") for kind in kinds if kinds[kind])
        if f.result == "bool" and not looped and (re.fullmatch(r"match \w+ \{( [\w:]+( \{[^}]*\}|\([^)]*\))? => (true|false),)+ \}", flat) or re.fullmatch(
                rf"{TEST}(?:[^;{{]* == [^;{{]*|(?:{TEST})+[^;{{]*)", flat)):
            yield f, "equality", f"fn {f.name}: part by part"
        if re.search(r"b'0'|(?:/|%|\*) 10\b", flat):
            yield f, "printing or reading of numbers", f"fn {f.name}"
        elif (re.fullmatch(r"[(]*[\w.()]+( as \w+\))?( % \w+\))? as \w+|\(\w+ as u64\) < \w+|self\.0", flat) or "256" in flat and "u8]" in f.sign
              or re.search(r"[<>] ?\d{10}\b", flat) and " as " in flat or re.search(r"if (\w+) < 0 \{.* as u32", flat)
              or len(f.params) == 1 and f.name != "new" and "self" not in f.sign and f.owner.endswith((f" {f.result}", f"> {f.result}"))):
            yield f, "conversion", f"fn {f.name}: {flat[:60]}"
        if f.owner and " for " not in f.owner and re.fullmatch("(add|sub|mul|div)(_assign)?|rem|neg|not", f.name):
            yield f, "operator", f"fn {f.name} of {f.owner}"


def point5(code):
    """A fact that stands in the contracts of three or more functions, and parameters that always travel together."""
    facts, groups = defaultdict(dict), defaultdict(list)
    for f in (f for f in code if f.sort == "fn"):
        for fact in (x for x in f.facts if not re.match(r"(result|\w+\.new) ≡", x) and "→" not in x):
            used = {w for w in re.findall(r"(?<![\w.])\w+", fact) if w in f.params}
            plain = re.sub(r"(?<![\w.])(\w+)(\.\w+)*", lambda m: m[0] if m[1] not in f.params and m[1] != "result" else m[1] if len(used) > 1
                           and "[" in f.params.get(m[1], "") else "_", fact)
            facts[f.family, plain].setdefault(f, fact)
        if len(re.findall(r"(?:result ≡|\.new ≡) (?:numbered|refusal_of|written) \((.*)\)", "\n".join(f.facts))) > 1:
            facts[f.family, "answer and buffer"][f] = "what is answered stands in two clauses"
        if f.params and "extern" not in f.sign:
            groups[f.family].append((f, frozenset((p, re.sub(r"\d+", "#", t)) for p, t in f.params.items())))
    for fs in (fs for fs in facts.values() if len(fs) > 2):
        for f, fact in fs.items():
            yield f, "fact in three or more", f"fn {f.name}: {fact}"
    for fs in groups.values():
        sets = {a & b for _, a in fs for _, b in fs if len(a & b) > 2 or len(a & b) > 1 and not any(t[0].isupper() for _, t in a & b)}
        held = {s: sum(s <= params for _, params in fs) for s in sets}
        held = {s: n for s, n in held.items() if n > 2 and 2 * n >= sum(bool(params & s) for _, params in fs)}
        for f, params in fs:
            if best := max((s for s in held if s <= params), key=lambda s: (len(s), held[s], sorted(s)), default=None):
                yield f, "parameters that travel together", f"fn {f.name}: " + ", ".join(sorted(p for p, _ in best))


def point6(code):
    """Buffers with a length beside them, parallel arrays, arrays that hold several lists."""
    for f in code:
        for p, t in f.fields if len(f.fields) > 1 else []:
            if t == "usize" and (re.fullmatch(r"count|len|length|entries|gots|threshold|place|many|at|end", p) or "[" in f.text):
                yield f, "length in a struct, beside a buffer", f"struct {f.name}, {p}"
        if f.result == "usize" and re.search(r": &mut \[\w+\][,)]", f.sign):
            yield f, "fills a buffer and answers its length", f"fn {f.name}"
        for p, t in f.params.items():
            if t == "usize" and (p in ("n", "len", "many") and "[" in f.sign or p == "at" and "&mut [u8]" in f.sign):
                yield f, "parameter that is a buffer's length", f"fn {f.name}, {p}"
            if re.fullmatch(r"&(?:mut )?\[[\w:]+; \w+\]", t):
                yield f, "fixed array that holds lists", f"fn {f.name}, {p}: {t}"
        if m := re.search(r"length (\w+)\.\w+ ≡ length (\w+)\.\w+", f.clauses.split("ensures")[0]):
            yield f, "parallel slices", f"fn {f.name}: {m[1]} and {m[2]}"
        for n, t in f.body:
            m = re.match(r" +let mut (\w+)(?:: \[.*\])? = (\[(?!b').*; \w+\]|[\w:]*buffer\(\));$", t)
            if m and re.search(rf"\b{m[1]}\[\w*\.\.|&(mut )?{m[1]}\b(?!\[)", f.text):
                yield At(f.file, n), "fixed buffer and a count", f"fn {f.name}: {t.strip()}"


def point7(code):
    """A switch on which step to run."""
    for f in (f for f in code if f.sort == "fn"):
        for n, t in f.body:
            m = re.match(r".*\bmatch (\w+) \{$", t)
            if m and re.fullmatch(NUMBER, f.params.get(m[1], "")) and "from" not in f.name and (m[1] == "kind" or re.search(r"\d => \w+\(", f.text)):
                yield At(f.file, n), "match on a number", f"fn {f.name}"
            if re.search(r"\w\(.*, (?:true|false)\)", t):
                yield At(f.file, n), "bool that says which step", f"fn {f.name}: {t.strip()}"
        for p, t in f.params.items():
            if t == "bool" and re.search(rf"\(.*\b{p}\)|if {p} \{{ [\w:]+\(", f.text):
                yield f, "bool that says which step", f"fn {f.name}, {p}"


def point8(proofs, library):
    """Answers that cite nothing, answers that repeat, and lemmas that stand twice or that a library has."""
    same, stated, known = defaultdict(list), defaultdict(list), stated_in(library)
    for file, text in proofs.items():
        for n, name, plain in answers(text):
            same[file.split("/")[1], plain].append((At(file, n), name))
            if re.fullmatch(r"refl|(search|omega|grind|simp|rw|cc) ?\(?((rules|arith|common_steps),? ?)*\)?", plain):
                yield At(file, n), "answer that cites nothing", f"{name}: {plain}"
        for n, name, said in lemmas(text):
            stated[said].append((At(file, n), name))
            if said in known:
                yield At(file, n), "lemma that the library has", f"{name}, as {known[said]}"
    for (_, plain), found in same.items():
        yield from ((at, "answer that repeats", f"{name}: {plain[:100]}") for at, name in found if len(found) > 2)
    for found in stated.values():
        yield from ((at, "lemma that stands twice", f"{name}, and {found[0][0].file}: {found[0][1]}") for at, name in found[1:])


if __name__ == "__main__":
    options = argparse.ArgumentParser(usage=__doc__)
    for name, how in [("point", {}), ("revision", {"nargs": "?"}), ("--totals", {"action": "store_true"}), ("--library", {"nargs": "+", "default": []})]:
        options.add_argument(name, **how)
    given = options.parse_args()
    all_files = files(given.revision)
    code = list(items(all_files))
    for point in range(1, 9) if given.point == "all" else [int(given.point)]:
        found = point8({f: t for f, t in all_files.items() if "/proofs/" in f}, given.library) if point == 8 else globals()[f"point{point}"](code)
        places = sorted({(at.file, at.line, kind, what) for at, kind, what in found})
        for file, line, kind, what in [] if given.totals else places:
            print(f"{point} {file}:{line} {kind}: {what}")
        for kind, n in sorted(Counter(p[2] for p in places).items()):
            print(f"{point} {n:4} {kind}")
        print(f"{point} {len(places):4} places: " + ", ".join(f"{c} {n}" for c, n in sorted(Counter(p[0].split("/")[1] for p in places).items())))
