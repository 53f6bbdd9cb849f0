#!/usr/bin/env python3
"""Lists the places in crates/*/src that may have a plainer form, by eight points (docs/DESIGN-PASS.md).

    python3 tools/forms.py [COMMIT] [--places]     of a commit, or of the files as they lie here
"""
import collections, pathlib, re, subprocess, sys

args = [a for a in sys.argv[1:] if not a.startswith("--")]
show = "--places" in sys.argv

def files(pattern):
    if args:
        names = subprocess.run(["git", "ls-tree", "-r", "--name-only", args[0], "crates"], capture_output=True, text=True, check=True).stdout.split("\n")
        for n in names:
            if re.fullmatch(pattern, n):
                yield n, subprocess.run(["git", "show", f"{args[0]}:{n}"], capture_output=True, text=True, check=True).stdout
    else:
        for p in sorted(pathlib.Path("crates").rglob("*")):
            if p.is_file() and re.fullmatch(pattern, str(p)):
                yield str(p), p.read_text()

sources = list(files(r"crates/\w+/src/.*\.rt"))
answers = list(files(r"crates/\w+/proofs/.*\.antt"))
found = collections.defaultdict(list)

def note(point, kind, place, text):
    found[point].append((kind, place, " ".join(text.split())[:150]))

def lines(point, kind, pattern, skip=None):
    for name, text in sources:
        for i, line in enumerate(text.split("\n"), 1):
            code = line.split("//")[0]
            if re.search(pattern, code) and not (skip and re.search(skip, code)) and not code.lstrip().startswith("ghost"):
                note(point, kind, f"{name}:{i}", line)

# Functions and impls with their text: (place, name, signature with contract, body).
def close(text, at):
    deep = 0
    for j in range(at, len(text)):
        if text[j] == "{":
            deep += 1
        elif text[j] == "}":
            deep -= 1
            if deep == 0:
                return j
    return len(text)

def functions():
    for name, text in sources:
        for m in re.finditer(r"\bfn (\w+)", text):
            at, clauses = m.end(), []
            while at < len(text):
                c = re.compile(r"\b(requires|ensures)\*?\s*(\w+\s*)?\{|\{|;").search(text, at)
                if not c or text[c.start()] == ";":
                    at = None
                    break
                if c.group(1):
                    end = close(text, c.end() - 1)
                    clauses.append(text[c.end():end].strip())
                    at = end + 1
                else:
                    at = c.start()
                    break
            head = text[m.start():at] if at else text[m.start():c.end() if c else m.end()]
            body = text[at:close(text, at) + 1] if at else ""
            yield f"{name}:{text.count(chr(10), 0, m.start()) + 1}", m.group(1), head, clauses, body

# 1. Own enums of the shape of Option or Result, a flag with a value beside it, numbers for kinds or refusals.
for name, text in sources:
    for m in re.finditer(r"\benum (\w+)[^{]*\{", text):
        arms = [a for a in re.sub(r"//[^\n]*", "", text[m.end():close(text, m.end() - 1)]).split(",\n") if a.strip()]
        if len(arms) == 2 and any("(" in a for a in arms):
            note(1, "enum of two cases with a value", name, m.group(1))
lines(1, "number for a kind or for none", r"\b(rule|parent|kind|stage|which|table)\b\s*:\s*(u8|u16|usize)|\bNO_PARENT\b|== 255\b|parent: 255\b|\bparent < 64\b|\brule == \d")
lines(1, "number for a refusal", r"fn (number|refusal)\b|fn at\(number")
lines(1, "flag beside values", r"^\s*(pub(\(crate\))? )?\w+: bool,")

# 2. Twins: functions of one shape, and impls of one trait with one shape.
def shape(text):
    out = []
    for t in re.findall(r"[A-Za-z_]\w*|\d\w*|[^\s\w]", re.sub(r"//[^\n]*", "", text)):
        out.append(t if t in KEEP or not re.match(r"\w", t) else "_")
    return " ".join(out)
KEEP = set("fn let mut if else for in while loop match return self Self impl pub struct enum trait true false as Some None Ok Err".split())
groups = collections.defaultdict(list)
for place, fname, head, clauses, body in functions():
    if len(re.findall(r"\w+", body)) >= 6:
        groups[shape(re.sub(r"\b(requires|ensures)\b.*", "", head, flags=re.S)) + shape(body)].append((place, fname))
for shp, members in groups.items():
    if len(members) > 1:
        for place, fname in members:
            note(2, "function of the same shape as " + ", ".join(n for p, n in members if p != place), place, fname)
impls = collections.defaultdict(list)
for name, text in sources:
    for m in re.finditer(r"^impl(<[^>]*>)? (\w+)(<[^{]*>)? for (\w+)[^{]*\{", text, flags=re.M):
        block = text[m.start():close(text, m.end() - 1)]
        impls[m.group(2) + shape(re.sub(r"ghost \w+ = \{.*?\};", "", block, flags=re.S))].append((f"{name}:{text.count(chr(10), 0, m.start()) + 1}", m.group(4)))
for shp, members in impls.items():
    if len(members) > 1 and "fn" in shp:
        for place, tname in members:
            note(2, "impl of the same shape as " + ", ".join(n for p, n in members if p != place), place, shp.split()[0].replace("impl", "") + " for " + tname)
for name, text in sources:
    for m in re.finditer(r"^const (\w+)|^pub const (NO_\w+)", text, flags=re.M):
        if m.group(2):
            note(2, "constant that is a blank value", f"{name}:{text.count(chr(10), 0, m.start()) + 1}", m.group(0))

# 3. Loops that count an index by hand.
lines(3, "for over a range of numbers", r"\bfor \w+ in [^{]*\.\.")
lines(3, "while or loop", r"^\s*(while|loop)\b")

# 4. Equality, order, copying, conversion and printing written by hand.
lines(4, "impl written by hand", r"^\s*impl(<[^>]*>)? (PartialEq|Eq|PartialOrd|Ord|Clone|Default|Hash|Debug)\b")
lines(4, "conversion, comparison or printing as a function", r"fn (same|number|refusal|layer|copied|padded|blank|front|order|pair_of|barred_pair|name_of|blank_rows)\b")
lines(4, "two bytes put together by hand", r"256 \*")

# 5. A fact in three or more contracts, and parameters that travel together.
facts = collections.defaultdict(list)
travel = collections.defaultdict(list)
for place, fname, head, clauses, body in functions():
    for c in clauses:
        for part in re.split(r"\s×\s|→", c):
            p = " ".join(part.replace("(", " ( ").replace(")", " ) ").split()).strip("() ")
            p = re.sub(r"\.(now|old|new|entry)\b", "", p)
            if len(p) > 12 and re.search(r"[≡≤<]", p):
                facts[p].append(place)
    params = re.search(r"\(([^{]*?)\)\s*(->|\n|$|requires|ensures|\{)", head, flags=re.S)
    if params:
        names = [n for n in re.findall(r"(\w+)\s*:\s*[&\w\[]", params.group(1))]
        for i in range(len(names)):
            for j in range(i + 1, len(names)):
                travel[(names[i], names[j])].append(place)
for p, places in facts.items():
    if len(set(places)) >= 3 and "result ≡" not in p:
        note(5, f"fact in {len(set(places))} contracts", places[0], p)
for pair, places in travel.items():
    if len(set(places)) >= 5:
        note(5, f"parameters in {len(set(places))} functions", places[0], " ".join(pair))

# 6. Buffers with a length beside them, parallel arrays, lists searched by hand, arenas of indices.
lines(6, "array of a fixed size", r"\[[^\];]+; *(\d{2,}|[A-Z_]+)\]")
lines(6, "count beside a buffer", r"^\s*(pub(\(crate\))? )?(count|used|len)\s*:\s*(u8|u16|usize),")

# 7. A switch on which step to run, tables of functions.
lines(7, "match on a number or a name of a step", r"match (\w+\.)*(rule|which|table|stage|mode|step)\b")
lines(7, "function pointer or dyn", r"\bfn\(|\bdyn\b")

# 8. Proofs: answers that repeat.
bodies = collections.defaultdict(list)
for name, text in answers:
    if name.endswith("/Answers.antt"):
        bodies["\n".join(l for l in text.split("\n") if not l.startswith("use "))].append(name)
for b, names in bodies.items():
    if len(names) > 1:
        for n in names:
            note(8, "answers that stand elsewhere too", n, b)
found[8].append(("files of answers", "crates/*/proofs", str(sum(1 for n, t in answers if n.endswith("/Answers.antt")))))
found[8].append(("lines of proofs", "crates/*/proofs", str(sum(t.count("\n") for n, t in answers))))

for point in range(1, 9):
    kinds = collections.Counter(re.sub(r"\bin \d+ ", "in so many ", re.sub(r" as .*", "", k)) for k, p, t in found[point])
    print(f"{point}. {len(found[point])}")
    for k, n in kinds.items():
        print(f"   {n} {k}")
    if show:
        for k, p, t in found[point]:
            print(f"      {p}: {t}   [{k}]")
