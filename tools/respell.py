#!/usr/bin/env python3
"""Brings the repository's own definitions and lemmas to one spelling: facts and types in camel case, all else in snake case.

usage: python3 tools/respell.py [--list]      at the top of a checkout, once, after the kit's port.py

It renames the crate bytes to encoding, since the kit has a library bytes. It goes over crates/*/specs, crates/*/proofs and the clauses of crates/*/src; edits of crates/*/must-fail name code alone, and stay. Names that Rattle
makes (goals, steps of the code, as loop-i-preserved or c.in-Then) are no names of ours, and stay. --list prints the renamings and writes nothing.
A line 'falls together' names a file in which the new name stands already; those that it prints here name functions of the code, or the lemmas that state a function's contract, and do no harm.
"""

import os
import re
import sys

TOKEN = re.compile(r"[^\s(){}\[\];,.:@⌜⌝λ]+")
WORD = re.compile(r"[A-Za-z][A-Za-z0-9_']*(-[A-Za-z0-9_'≡≤<+*]+)+$")
# A name where it is defined, or declared with its type.
DEFINED = re.compile(r"^ *(?:pub |abbrev |unfoldable |data |record |let )*(?P<name>[^\s(){}\[\];,.:@]+) (?=[:(])")
LOCAL = re.compile(r"\blet (?P<name>[^\s(){}\[\];,.:@]+) (?=[:=])")
ANSWER = re.compile(r"^(?:pub |abbrev )+(?P<name>\S+) : goal\.")
# What a path into a goal or a step of the code begins with: its other parts are names that Rattle makes.
PATH_HEADS = {"c", "w", "v", "l", "goal", "g", "t"}


def files():
    for crate in sorted(os.listdir("crates")):
        for part in ("specs", "proofs", "src", "must-fail"):
            for folder, dirs, names in os.walk(os.path.join("crates", crate, part)):
                dirs.sort()
                for name in sorted(names):
                    if name.endswith((".antt", ".rt", ".edit")):
                        yield os.path.join(folder, name)


def camel(name):
    return "".join(p[:1].upper() + p[1:] for p in name.split("-"))


# Names that would fall together with the library's, or name what the library calls otherwise now.
OTHERS = {"bit-and": "bit-bit_and", "bit-or": "bit-bit_or"}


def new_name(name):
    if name in OTHERS:
        return OTHERS[name]
    return camel(name) if name[0].isupper() else re.sub("^getD-", "get_or-", name).replace("-", "_")


def own_names(texts):
    """Names with a dash that our files define, and those among them that are fields or constructors."""
    own, fields = set(), set()
    for path, text in texts.items():
        own.update(n for n in re.findall(r" as ([^\s,};.]+)", text) if WORD.match(n))
        if not path.endswith(".antt"):
            continue
        answers = {m.group("name") for line in text.split("\n") if (m := ANSWER.match(line))}
        block = ""
        for line in text.split("\n"):
            if line and not line.startswith(" "):
                block = line
            m = DEFINED.match(line)
            if m and WORD.match(m.group("name")) and m.group("name") not in answers:
                own.add(m.group("name"))
                if line.startswith(" ") and re.match(r"(pub )?(record|data) ", block):
                    fields.add(m.group("name"))
            for m in LOCAL.finditer(line):
                if WORD.match(m.group("name")):
                    own.add(m.group("name"))
            # variables of a definition's clause, and of a λ
            m = re.match(r"^ *[^\s(){}\[\];,.:@|]+ (?P<vars>[^=:]*) =(?: |$)", line)
            if m:
                own.update(v for v in TOKEN.findall(m.group("vars")) if WORD.match(v))
            for m in re.finditer(r"λ ([^.:]*)[.:]", line):
                own.update(v for v in TOKEN.findall(m.group(1)) if WORD.match(v))
            for m in re.finditer(r"[({]([^(){}:]+) : ", line):
                own.update(v for v in TOKEN.findall(m.group(1)) if WORD.match(v))
    return own, fields


def imported(texts):
    """Names that come from the library."""
    found = set()
    for path, text in texts.items():
        for m in re.finditer(r"use ([A-Za-z][^\s{;]*)\.\{([^}]*)\}", text):
            crate = m.group(1).split(".")[1] if m.group(1).startswith("Rattle.") else ""
            if not os.path.isdir(os.path.join("crates", crate)) or not crate:
                found.update(n.strip().split(" as ")[0] for n in m.group(2).split(","))
    return found


def respell(path, text, renamed, fields, answers):
    """The text with our names turned; behind a dot only fields of our own records, and what a module of ours or an alias of one has."""
    out, at = [], 0
    for m in TOKEN.finditer(text):
        name = m.group()
        new = renamed.get(name)
        if not new or name in answers:
            continue
        before = text[m.start() - 1 : m.start()]
        if before == ".":
            head = re.search(r"([^\s(){}\[\];,:@⌜⌝λ]*)\.$", text[max(0, m.start() - 200) : m.start()]).group(1).split(".")[0]
            is_module = head == "Rattle"
            if not is_module and name not in fields and not (head not in PATH_HEADS and is_alias(text, head)):
                continue
        out.append(text[at : m.start()])
        out.append(new)
        at = m.end()
    out.append(text[at:])
    return "".join(out)


def is_alias(text, head):
    return re.search(r"use [^\n{]* as %s\b" % re.escape(head), text) is not None


def rt_clauses_only(text, turn):
    """In code a dash is a minus: only clauses and ghost items are turned, to the brace that closes them."""
    out, open_braces = [], 0
    for line in text.split("\n"):
        if open_braces or re.match(r" *(pub )?(ghost|requires|ensures|invariant|law)\b", line):
            out.append(turn(line))
            open_braces = max(0, open_braces + line.count("{") - line.count("}"))
        else:
            out.append(line)
    return "\n".join(out)


def rename_crate(old, new):
    """Its folder, its lines in crates.txt, and the paths and use lines that name it."""
    if os.path.isdir(f"crates/{old}"):
        os.rename(f"crates/{old}", f"crates/{new}")
    with open("crates.txt", encoding="utf-8") as f:
        lines = f.read().split("\n")
    with open("crates.txt", "w", encoding="utf-8") as f:
        f.write("\n".join(l if l.startswith("#") else re.sub(rf"\b{old}\b", new, l) for l in lines))
    for path in files():
        with open(path, encoding="utf-8") as f:
            text = f.read()
        turned = re.sub(rf"\bRattle\.{old}\b", f"Rattle.{new}", text)
        if path.endswith(".rt"):
            turned = re.sub(rf"^use {old}::", f"use {new}::", turned, flags=re.M)
        if turned != text:
            with open(path, "w", encoding="utf-8") as f:
                f.write(turned)


def main():
    if "--list" not in sys.argv:
        rename_crate("bytes", "encoding")
    texts = {}
    for path in files():
        with open(path, encoding="utf-8") as f:
            texts[path] = f.read()
    own, fields = own_names(texts)
    theirs = imported(texts)
    renamed = {n: new_name(n) for n in sorted(own - theirs)}
    if "--list" in sys.argv:
        for old, new in renamed.items():
            print(old, new)
        print("fields:", " ".join(sorted(fields)))
        print("kept, since the library has them:", " ".join(sorted(own & theirs)))
    clash = 0
    for path, text in texts.items():
        tokens = set(TOKEN.findall(text))
        for old in tokens & renamed.keys():
            if renamed[old] in tokens:
                clash += 1
                print("falls together:", path, old, renamed[old])
    if "--list" in sys.argv:
        return
    for path, text in texts.items():
        answers = {m.group("name") for line in text.split("\n") if (m := ANSWER.match(line))}
        turn = lambda t: respell(path, t, renamed, fields, answers)
        new = rt_clauses_only(text, turn) if path.endswith(".rt") else turn(text) if path.endswith(".antt") else text
        if new != text:
            with open(path, "w", encoding="utf-8") as f:
                f.write(new)


if __name__ == "__main__":
    main()
