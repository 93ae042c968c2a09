#!/usr/bin/env python3
"""tools/spell_names.py: spells the repository's own definitions, lemmas, fields and constructors in snake case, once, over the text that the kit's port.py leaves.

usage: tools/spell_names.py [--check]

A name that the files of specs/ and proofs/ declare gets an underscore for each dash and before each further word, as `power_mod` for `powerMod` and
`castle_exact` for `castle-exact`; the one definition that gives a fact and began with a small letter is `Holds`. Where a lemma would meet a definition it ends in `_lem`.
A name that a file imports from a library stays, and so does a name that Rattle makes: a field of a step, and a name that a file of a function's folder gives to a
goal, an invariant or a measure. Edits that must fail and the code spans of the documents follow. With --check nothing is written.
"""
import json
import re
import sys
from pathlib import Path

TOP = Path(__file__).resolve().parent.parent
CRATES = TOP / "crates"
OWN = {path.name for path in CRATES.iterdir() if path.is_dir()}

# Names that would fall together once they are in snake case, and the few that are spelled as facts.
CHOSEN = {
    "holds": "Holds",
    "all_digits": "all_digits_lem",
    "count-from": "count_from_lem",
    "enough-places": "enough_places_lem",
    "first_byte": "first_byte_lem",
    "first-digit": "first_digit_lem",
    "goes_on": "goes_on_lem",
    "into-words": "into_words_lem",
    "lacking-sketch": "lacking_sketch_lem",
    "last-digit": "last_digit_lem",
    "last-shaped": "last_shaped_lem",
    "no-divisor": "no_divisor_lem",
    "packet-length": "packet_length_lem",
    "power-mod": "power_mod_lem",
    "put-in": "put_in_lem",
    "taken_out": "taken_out_lem",
    "well-begun": "well_begun_lem",
    "well-formed": "well_formed_lem",
    "words-fit": "words_fit_lem",
}
# Only in these crates is the word a lemma of this repository's that port.py had spelled.
ONLY_IN = {"all_digits": "desk_rules", "first_byte": "desk_reader", "goes_on": "desk_reader", "taken_out": "desk_rules"}

WORD = re.compile(r'[^\s(){}.;,@"«»]+')
DECLARED = re.compile(r'^( *)((?:(?:abbrev|unfoldable|pub|data|record|mutual) )*)([^\s(){}.;,@"«»:]+)((?: \{[^{}\n]*\}| \([^()\n]*\))*) :(?= |$)([^\n]*(?:\n\1 +[^\n]*)*)', re.M)
FIELD = re.compile(r"^(?:(?:abbrev|pub) )*(?:record|data) \S+[^\n]*(?:\n +[^\n]*)*? where\n((?:(?: [^\n]*)?\n)*)", re.M)
USE = re.compile(r"\buse +([^\s;{]+?)(?:\.?\{([^}]*)\})?(?: as +([^\s;]+))?(?=;|\s|$)")
MADE = re.compile(r"^\s*(?:tie|goal|lts|[\w-]+-lts)\.|^\s*(?:\{[^}]*\}|\([^)]*\))*\s*→?\s*(?:tie|goal|lts|[\w-]+-lts)\.(?:Need|InvT|MeasureT)")
COMMENT = re.compile(r"(--[^\n]*)")
SPAN = re.compile(r"`[^`\n]+`")


def spelled(name):
    if name in CHOSEN:
        return CHOSEN[name]
    if name[0].islower():
        name = re.sub(r"(?<=[a-z0-9])([A-Z])", lambda m: "_" + m[1].lower(), name)
    return name.replace("-", "_")


def crate_of(path):
    return path.relative_to(CRATES).parts[0]


def in_function_folder(path):
    parts = path.relative_to(CRATES).parts
    return parts[1] == "proofs" and len(parts) > 3


def uncommented(text):
    return re.sub(r"--[^\n]*", "", text)


def declarations(path, text):
    """The names that the file declares, without those that Rattle asks for."""
    names = set()
    for m in DECLARED.finditer(uncommented(text)):
        if not (in_function_folder(path) and MADE.search(m[5])):
            names.add(m[3])
    return names


def imports(text):
    """What the file brings in: own names and module names, and names of libraries."""
    own, foreign, modules = set(), set(), set()
    for m in USE.finditer(uncommented(text)):
        steps = m[1].split(".")
        ours = steps[0] == "Rattle" and len(steps) > 1 and steps[1] in OWN
        if m[2] is not None:
            for item in m[2].split(","):
                words = item.split()
                if words:
                    (own if ours else foreign).update(w for w in words if w != "as")
        elif m[3]:
            (modules if ours else foreign).add(m[3])
    return own, foreign, modules


def main(check):
    files = {p: p.read_text() for p in sorted(CRATES.rglob("*.antt")) if "out" not in p.relative_to(CRATES).parts[:2]}
    declared = {p: declarations(p, t) for p, t in files.items()}
    shared = set()
    fields = set()
    for path, text in files.items():
        if not in_function_folder(path):
            shared |= declared[path]
            for m in FIELD.finditer(uncommented(text)):
                for line in m[1].split("\n"):
                    f = re.match(r"  (?:pub )?(\S+)(?: \{[^}]*\})* :", line)
                    if f:
                        fields.add(f[1])
    fields = {f for f in fields if spelled(f) != f}
    changed = 0
    scopes = {}

    def scope(path, text):
        own, foreign, modules = imports(text)
        here = declared.get(path, set())
        crate = crate_of(path)
        def mine(n):
            return n not in ONLY_IN or ONLY_IN[n] == crate
        local = {n for n in here if mine(n)} | {n for n in own if mine(n) and (n in shared or spelled(n) != n)} | modules
        if not in_function_folder(path):
            local |= {n for n in shared if mine(n) and n not in foreign and n not in CHOSEN}
        return {n: spelled(n) for n in local if n not in foreign and spelled(n) != n}, modules

    def turned(text, names, modules, function_folder):
        def word(m):
            w, start = m[0], m.start()
            behind = start > 0 and m.string[start - 1] == "."
            if behind:
                before = re.search(r'([^\s(){}.;,@"«»]+)\.$', m.string[:start])
                if before and before[1] in modules:
                    return spelled(w) if w in shared and spelled(w) != w else w
                return spelled(w) if w in fields else w
            if w in names:
                return names[w]
            return spelled(w) if w in fields and not function_folder else w
        return WORD.sub(word, text)

    def antt(path, text):
        names, modules = scope(path, text)
        out = []
        for part in re.split(r"(--[^\n]*)", text):
            if part.startswith("--"):
                part = SPAN.sub(lambda m: turned(m[0][1:-1], names, modules, False).join("``"), part)
            else:
                part = turned(part, names, modules, in_function_folder(path))
            out.append(part)
        return "".join(out)

    for path, text in files.items():
        new = antt(path, text)
        names, modules = scope(path, text)
        # The proof of a Rattle function f is f_spec.
        if path.name == "Proof.antt":
            new = re.sub(r"(?m)(?<![\w.-])(\+?[\w+-]+)-spec(?![\w-])", lambda m: m[1].replace("-", "_") + "_spec", new)
        scopes[path] = names, modules
        if new != text:
            changed += 1
            if not check:
                path.write_text(new)
    for path in sorted(CRATES.rglob("*.rt")):
        text = path.read_text()
        own, foreign, modules = imports(text)
        names = {n: spelled(n) for n in own if spelled(n) != n and n in shared and (n not in ONLY_IN)}
        scopes[path] = names, modules
        out = []
        for part in re.split(r'(//[^\n]*|"(?:\\.|[^"\\])*")', text):
            if not part.startswith(("//", '"')):
                part = turned(part, names, modules, False)
            out.append(part)
        new = "".join(out)
        if new != text:
            changed += 1
            if not check:
                path.write_text(new)
    every = {n: spelled(n) for n in shared if spelled(n) != n and n not in ONLY_IN and n != "holds"}
    known = {n if n in ONLY_IN else spelled(n) for names in declared.values() for n in names} | {spelled(f) for f in fields} | set(CHOSEN.values())

    def now(word):
        """The spelling of a word of an edit or of a document: port.py has turned some names that these still have in the old one."""
        if word in every:
            return every[word]
        return spelled(word) if spelled(word) in known and ("-" in word or re.search("[a-z0-9][A-Z]", word)) else word

    for path in sorted(CRATES.glob("*/must-fail/*.edit")):
        text = path.read_text()
        new, names, modules = [], {}, set()
        for line in text.split("\n"):
            key, _, rest = line.partition(":")
            if key == "file":
                target = path.parent.parent / rest.strip()
                names, modules = scopes.get(target, ({}, set()))
                if target.suffix == ".antt":
                    names = {**{n: spelled(n) for n in fields}, **names}
            elif key in ("old", "new"):
                line = key + ":" + WORD.sub(lambda m: now(m[0]), turned(rest, names, modules, False))
            new.append(line)
        new = "\n".join(new)
        if new != text:
            changed += 1
            if not check:
                path.write_text(new)
    for path in [TOP / "README.md", *sorted((TOP / "docs").glob("*.md")), TOP / "compare" / "README.md"]:
        if not path.is_file() or path.name == "PORT.md":
            continue
        text = path.read_text()
        def span(m):
            inside = m[0][1:-1]
            return "`" + WORD.sub(lambda w: now(w[0]), inside) + "`"
        new = WORD.sub(lambda w: now(w[0]), text) if path.suffix == ".edits" else SPAN.sub(span, text)
        if new != text:
            changed += 1
            if not check:
                path.write_text(new)
    print(json.dumps({"names": len(every), "files": changed}))


if __name__ == "__main__":
    if sys.argv[1:] not in ([], ["--check"]):
        sys.exit(__doc__)
    main(sys.argv[1:] == ["--check"])
