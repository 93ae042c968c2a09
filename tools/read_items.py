"""Reads the code and the proof files under crates/ into functions, structs, lemmas and the like, for tools/count_places.py."""
import io
import re
import subprocess
import tarfile
from collections import namedtuple
from pathlib import Path

TOP = Path(__file__).resolve().parent.parent

At = namedtuple("At", "file line")


def files(revision):
    if revision is None:
        return {str(p.relative_to(TOP)): p.read_text() for p in sorted(TOP.glob("crates/*/*/**/*")) if p.suffix in (".rt", ".antt") and "out" not in p.parts}
    archive = subprocess.run(["git", "-C", TOP, "archive", revision, "crates"], check=True, capture_output=True).stdout
    with tarfile.open(fileobj=io.BytesIO(archive)) as tar:
        return {m.name: tar.extractfile(m).read().decode() for m in tar if m.name.endswith((".rt", ".antt"))}


def split(text, mark):
    """The parts of a text between marks that stand in no bracket."""
    parts, depth, start = [], 0, 0
    for i, c in enumerate(text):
        depth += (c in "([{<") - (c in ")]}" or c == ">" and text[i - 1] not in "-=")
        if depth == 0 and text.startswith(mark, i):
            parts, start = parts + [text[start:i]], i + len(mark)
    return [p.strip() for p in parts + [text[start:]] if p.strip()]


class Item:
    """A function, struct, enum, constant or alias, with the comment above it and the `impl` around it; of a function the parameters, result and facts too."""

    def __init__(self, file, lines, at, comment, owner):
        self.file, self.line, self.comment, self.owner, self.crate = file, at + 1, comment, owner.rstrip(" {"), file.split("/")[1]
        self.family = re.sub(r"_[a-z]+", "", self.crate)
        self.sort, self.name = re.search(r"\b(fn|struct|enum|const|type) (\w+)", lines[at]).groups()
        indent, end = re.match(r" *", lines[at]).group(), at
        while not re.search(r"[{;]$", lines[end]) and lines[end] != indent + "{":
            end += 1
        last, head = end, "\n".join(lines[at:end + 1])
        while head.endswith("{") and lines[last] != indent + "}":
            last += 1
        self.body = [(k + 1, lines[k]) for k in range(end + 1, last) if not lines[k].strip().startswith("//")]
        self.text = "\n".join(t for _, t in self.body)
        self.fields = re.findall(r"^ {4}(?:pub(?:\(crate\))? )?(\w+): (.*),$", self.text, re.M) if self.sort == "struct" else []
        self.flat = re.sub(r"\s+", " ", self.text).strip()
        sign, clause, clauses = re.match(r"(.*?)(\s(?:requires|ensures)\b|$)(.*)", head, re.S).groups()
        self.sign, self.clauses = re.sub(r"\s+", " ", sign.rstrip("{; \n")), clause + clauses
        inner = re.search(rf"fn {self.name}(?:<.*?>)?\((.*)\)( -> (.*?))?(?: where .*)?$", self.sign)
        self.params = {p.split(":")[0].strip(): p.split(":", 1)[1].strip() for p in split(inner[1], ",") if ":" in p} if inner else {}
        self.result = inner and inner[3] or ""
        said = re.findall(r"\b(?:requires|ensures)(?: \w+)? (\{.*?\})(?=\s*(?:requires|ensures|\{|;|$))", self.clauses, re.S)
        self.facts = [re.sub(r"\s+", " ", p) for c in said for f in split(c[1:-1], " × ") for p in (split(f[1:-1], " × ") if f[0] + f[-1] == "()" else [f])]


def items(all_files):
    for file, text in all_files.items():
        lines, comment, owner = text.split("\n"), "", ""
        for at, line in enumerate(lines if "/src/" in file else []):
            owner = line if re.match(r"(pub )?(impl|trait)\b", line) else "" if line == "}" else owner
            if re.match(r'(?: {4})?(?:pub(?:\(crate\))? )?(?:extern "C" )?(?:const )?(fn|struct|enum|const|type) \w+', line):
                yield Item(file, lines, at, comment, owner)
            comment = comment + line if line.strip().startswith("//") else comment if line.strip().startswith("#[") else ""


def loops(f):
    for i, (n, t) in enumerate(f.body):
        if m := re.match(r"( *)(for (\w+) in (.*)|while .*) \{$", t):
            end = next(j for j in range(i + 1, len(f.body)) if f.body[j][1] == m[1] + "}")
            yield At(f.file, n), m[2], m[3], "\n".join(x for _, x in f.body[i + 1:end])


def lemmas(text):
    """The line, the name and the statement of each lemma of a proof file, with the variables numbered in the order in which they come."""
    for m in re.finditer(r"^( *)(?:pub )?([^\s:(){}]+) : (.*(?:\n\1 {4,}(?![^\s:(){}]+ : ).*)*)", text, re.M):
        bound, numbers = set(), {}
        said = re.sub(r"[({]([^(){}:]+) : (?:[^(){}]|\([^(){}]*\))*[)}]\s*(?:→\s*)?", lambda b: bound.update(b[1].split()) or "", re.sub(r" = .*", "", m[3]))
        said = re.sub(r"[^\s()]+", lambda w: numbers.setdefault(w[0], f"v{len(numbers)}") if w[0] in bound else w[0], said)
        if bound and re.search("[≡≤<∣]", said) and not m[3].startswith("goal."):
            yield text.count("\n", 0, m.start()) + 1, m[2], re.sub(r"\s+", " ", said).strip()


def stated_in(directories):
    """What the lemmas of the proof files under directories state, each with a name of its lemma."""
    return {said: f"{p.parent.name}/{p.stem}.{name}" for d in directories for p in sorted(Path(d).rglob("*.antt")) for _, name, said in lemmas(p.read_text())}


def answers(text):
    """The line, the name and the text of each answer of a proof file, with the steps, the numbers and its own name left out of the text."""
    for m in re.finditer(r"^pub (\S+) : goal\.\S+\n((?:.+\n)+)", text, re.M):
        body = re.sub(r"\s+", " ", m[2].split("=", 1)[-1]).strip()
        yield text.count("\n", 0, m.start()) + 1, m[1], re.sub(r"\d+", "#", re.sub(r"\bc\.[\w-]+", "c.STEP", body.replace(m[1], "GOAL")))
