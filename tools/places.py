#!/usr/bin/env python3
"""Counts places in crates/*/src where an older form may stand, by the points of docs/DESIGN-PASS.md.

usage: tools/places.py [COMMIT] [--list]

With a commit it counts there, and else in the checkout. With --list it prints each place too.
"""
import difflib
import re
import subprocess
import sys

args = [a for a in sys.argv[1:] if not a.startswith("--")]
LIST = "--list" in sys.argv


def git(*words):
    return subprocess.run(("git",) + words, capture_output=True, text=True, check=True).stdout


def files(pattern):
    """The files of that kind, as (path, text)."""
    if args:
        names = [n for n in git("ls-tree", "-r", "--name-only", args[0], "crates").split("\n") if re.fullmatch(pattern, n)]
        return [(n, git("show", f"{args[0]}:{n}")) for n in names]
    names = [n for n in git("ls-files", "-co", "--exclude-standard", "crates").split("\n") if re.fullmatch(pattern, n)]
    out = []
    for n in sorted(set(names)):
        try:
            out.append((n, open(n).read()))
        except FileNotFoundError:
            pass
    return out


SOURCES = [(n, re.sub(r"//[^\n]*", "", t)) for n, t in files(r"crates/\w+/src/\w+\.rt")]


def functions(text):
    """Each function of a text: its name, what stands before its body, and the body."""
    for m in re.finditer(r"\bfn (\w+)", text):
        at, depth, square = m.end(), 0, 0
        head = None
        k = at
        while k < len(text):
            c = text[k]
            square += {"[": 1, "]": -1}.get(c, 0)
            if c == "{":
                if depth == 0 and (text[text.rfind("\n", 0, k) + 1 : k].strip() == "" or re.search(r"(\)|>|\w)\s*$", text[at:k]) and "requires" not in text[text.rfind("\n", 0, k) + 1 : k] and "ensures" not in text[text.rfind("\n", 0, k) + 1 : k]):
                    head = text[at:k]
                    break
                depth += 1
            elif c == "}":
                depth -= 1
                if depth < 0:
                    break
            elif c == ";" and depth == 0 and square == 0:
                break
            k += 1
        if head is None:
            continue
        b, depth = k, 0
        while k < len(text):
            depth += {"{": 1, "}": -1}.get(text[k], 0)
            k += 1
            if depth == 0:
                break
        yield m.group(1), head, text[b:k], text.count("\n", 0, m.start()) + 1


FUNCTIONS = [(n, name, head, body, line) for n, t in SOURCES for name, head, body, line in functions(t)]


def found(point, what, places):
    print(f"{point}  {len(places):4}  {what}")
    if LIST:
        for p in places:
            print("            ", p)


def by_pattern(pattern, flags=re.M):
    return [f"{n}:{t.count(chr(10), 0, m.start()) + 1}: {' '.join(m.group(0).split())[:90]}" for n, t in SOURCES for m in re.finditer(pattern, t, flags)]


KINDS = "THREAD|TREADLE|TIE|BACK|CELL|PART|FLOATS|FEWEST|HANGS|ONE|THEN|TIMES|TURNED|RUN|REFUSED|NUMBER|TWO|CELLS|TOGETHER|OVER|UNREADABLE|NOT_THERE|NOT_OPENED|NOTHING_TO_UNDO|KIND_\\w+|\\w+_CHANGED|FIRST_TIE"
found(1, "an option taken apart by hand: else { return None }", by_pattern(r"else \{\s*return None;\s*\}"))
found(1, "an error handed on by hand: else { return Err(..) } after Ok, or Err(e) => return Err(e)", by_pattern(r"let Ok\([^=]*\) = [^;{]* else \{\s*return Err|Err\((\w+)\) => (return )?Err\(\1\)|None => (return )?None\b"))
found(1, "a number for a kind or a refusal: a constant", by_pattern(rf"^(pub )?const ({KINDS}): u(8|32|64) = \d+;"))
found(1, "a number for a kind: a parameter", by_pattern(r"\b(kind|number|change): u(8|32|64)\b(?=[,)])"))
found(1, "a flag with values beside it: a field", by_pattern(r"^\s+(pub )?(all|valid|known|found|done): bool,"))
found(1, "an answer with a refusal: Option<u32> of a call", [f"{n}:{l}: {f}" for n, f, h, b, l in FUNCTIONS if n.startswith("crates/drafts/") and "-> Option<u32>" in h])

# twins: bodies that are nearly the same, in one crate or in two
tokens = lambda b: re.findall(r"\w+|[^\s\w]", b)
shaped = [(n, f, tokens(b), l) for n, f, h, b, l in FUNCTIONS if not n.startswith(("crates/cases", "crates/laws"))]
twins = []
for i in range(len(shaped)):
    for j in range(i + 1, len(shaped)):
        a, b = shaped[i], shaped[j]
        if min(len(a[2]), len(b[2])) < 14 or abs(len(a[2]) - len(b[2])) > 0.25 * max(len(a[2]), len(b[2])):
            continue
        m = difflib.SequenceMatcher(None, a[2], b[2], autojunk=False)
        if m.quick_ratio() > 0.8 and m.ratio() > 0.8:
            twins.append(f"{a[0]}:{a[3]}: {a[1]} ~ {b[0]}:{b[3]}: {b[1]} ({m.ratio():.2f})")
found(2, "functions whose bodies are alike (four tokens in five)", twins)
types = []
for n, t in SOURCES:
    for m in re.finditer(r"^(?:pub )?(?:struct|enum) (\w+)[^{;]*\{(.*?)^\}", t, re.M | re.S):
        types.append((n, m.group(1), re.sub(r"\s+", "", re.sub(r"\bpub\b", "", m.group(2)))))
same = []
for i in range(len(types)):
    for j in range(i + 1, len(types)):
        if len(types[i][2]) > 12 and difflib.SequenceMatcher(None, types[i][2], types[j][2]).ratio() > 0.85:
            same.append(f"{types[i][0]}: {types[i][1]} ~ {types[j][0]}: {types[j][1]}")
found(2, "types whose fields or variants are alike", same)
consts = {}
for n, t in SOURCES:
    for m in re.finditer(r"^(?:pub )?const (\w+): [^=]* = ([^;]*);", t, re.M):
        consts.setdefault((m.group(1), m.group(2)), []).append(n)
found(2, "a constant declared again", [f"{k[0]}: {' '.join(v)}" for k, v in sorted(consts.items()) for _ in v[1:] if not any(x.startswith("crates/cases") for x in v)])

loops = []
for n, f, h, b, l in FUNCTIONS:
    for m in re.finditer(r"\bwhile let \[[^{]*\{|\bwhile (\w+) [<>]=? [^{]*\{|\bfor (\w+) in [^{]*\.\.[^{]*\{", b):
        var = m.group(1) or m.group(2)
        k, depth = m.end(), 1
        while k < len(b) and depth:
            depth += {"{": 1, "}": -1}.get(b[k], 0)
            k += 1
        body = b[m.end() : k]
        if m.group(2) and not re.search(rf"\[[^\]]*\b{var}\b[^\]]*\]|bit_at\([^)]*\b{var}\b", body):
            continue
        loops.append(f"{n}:{l}: {f}: {' '.join(m.group(0).split())}")
found(3, "loops that count an index, or cut a slice, by hand", loops)
found(3, "a counter that is moved on by hand beside a loop: x += n", [f"{n}:{l}: {f}" for n, f, h, b, l in FUNCTIONS if re.search(r"\b(for|while)\b", b) and re.search(r"\b(at|end|k|i|left)\b \+= ", b)])

found(4, "a function that puts or writes text", [f"{n}:{l}: {f}" for n, f, h, b, l in FUNCTIONS if re.match(r"crates/(tokens|answertext|rowprint|console|drawdown)/", n) and re.match(r"(put|write|push)_", f) and ("text" in h or "out" in h)])
found(4, "a conversion by a function", [f"{n}:{l}: {f}" for n, f, h, b, l in FUNCTIONS if f in ("code", "of", "kind_of", "setting_of", "reason", "spelling", "row_change", "slot_word", "from_line", "in_line", "at_line")])
found(4, "a comparison by a function", [f"{n}:{l}: {f}" for n, f, h, b, l in FUNCTIONS if f in ("longer", "smallest")])

facts, pairs = {}, {}
for n, f, h, b, l in FUNCTIONS:
    crate = n.split("/")[1]
    if crate.startswith("cases"):
        continue
    for m in re.finditer(r"requires(?: \w+)? \{(.*?)\}\s*(?=requires|ensures|$)", h, re.S):
        for part in re.split(r" × ", m.group(1)):
            fact = re.sub(r"\b\w+(\.(now|old|new|entry))?\b(?= *\)?$)", "_", " ".join(part.split()))
            word = re.match(r"\(?([A-Z]\w+)\b", fact)
            if word:
                facts.setdefault(word.group(1), []).append(f"{n}:{l}: {f}")
    p = re.match(r"(?:<[^(]*>)?\(([^)]*)\)", h)
    if p:
        names = [x.strip() for x in p.group(1).split(",") if ":" in x]
        names = [re.sub(r"\s+", " ", x) for x in names]
        for i in range(len(names)):
            for j in range(i + 1, len(names)):
                pairs.setdefault((names[i], names[j]), []).append(f"{n}:{l}: {f}")
found(5, "a fact that is required by three functions or more: functions", [f"{k}: {x}" for k, v in sorted(facts.items()) if len(set(v)) >= 3 for x in sorted(set(v))])
found(5, "two parameters that go together in three functions or more: pairs", [f"{k[0]}, {k[1]}: {', '.join(x.split(': ')[1] for x in sorted(set(v)))}" for k, v in sorted(pairs.items()) if len(set(v)) >= 3])

found(6, "parallel arrays, or a buffer with its length beside it: a signature or a variant", by_pattern(r"\w+: &\[\w+; PLACES\], \w+: &\[\w+; PLACES\]|count: u32, bits: (&?\[u8; \w+\])"))
found(6, "text as Vec<u8>", by_pattern(r"(text|bytes): &mut Vec<u8>|Result<Vec<u8>, \w+>|let mut text: Vec<u8>"))
found(7, "a flag that says which step to run: a parameter", by_pattern(r"\b\w+: bool(?=[,)])"))
found(7, "a table that is gone through by a number", by_pattern(r"\b(WORDS)\[\w+\]"))

answers = [(n, t) for n, t in files(r"crates/\w+/proofs/.*Answers\.antt")]
lemmas = [(n, t) for n, t in files(r"crates/\w+/proofs/\w+\.antt") if not n.endswith("Lib.antt")]
print(f"8  {sum(len(re.findall(r'^pub [^ ]+ : goal', t, re.M)) for n, t in answers):4}  answers, of {sum(t.count(chr(10)) for n, t in answers)} lines")
print(f"8  {sum(len(re.findall(r'^ *(?:pub )?[^ =]+ : ', t, re.M)) for n, t in lemmas):4}  lemmas, of {sum(t.count(chr(10)) for n, t in lemmas)} lines")
print(f"   {sum(t.count(chr(10)) for n, t in files(r'crates/[^/]+/src/[^/]+[.]rt')):4}  lines of source")
