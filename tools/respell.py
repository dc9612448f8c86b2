#!/usr/bin/env python3
"""Brings this repository's own definitions and lemmas to today's spelling, after port.py: words in snake case, types and facts as they are.

usage: python3 tools/respell.py [--check]     at the top of the repository, once, right after port.py

It takes each name that a file of specs/ or of proofs/ (not of a function's own folder) declares: `firstWrong` becomes `first_wrong` and
`absent-kept` becomes `absent_kept`. A dash stays where it joins two names: a crate, a type and a function in the fields of
`OneAnswerEach`, and a definition and `length` or `listed`. What is inside a string, and the names that Rattle makes of a function's steps,
stay. A lemma that would have a definition's name gets `_lem`. It prints the names that would fall together in a file, and then writes
nothing.
"""

import os
import re
import sys

TOKEN = re.compile(r"--[^\n]*|//[^\n]*|\"(?:[^\"\\\n]|\\.)*\"|[^\s(){}.;,@\"«»\[\]\\⌜⌝]+|.", re.S)
DECLARED = re.compile(r"^\s*(?:abbrev |unfoldable )?(?:pub )?([^\s:(){}=|]+(?: [^\s:(){}=|]+)*) :(?= |$)")
# A field that would have the name of the definition that it speaks of, and lemmas that port.py gave a definition's name.
APART = {"is-store": "is_a_store", "no_store": "no_store_lem"}
# Crates whose names are libraries of today's toolchain.
CRATE_NAMES = {"hex": "hexadecimal", "logbook": "watchlog"}
# Symbols of units stay as they are written.
UNITS = {"hPa", "mmHg"}
# Parameters and variables of definitions.
VARIABLES = [f"{a}-{b}" for a in ("to", "for", "of") for b in ("open", "hear", "note", "record", "recall", "list", "pressure", "tendency", "wind", "humidity")] + ["isOutside"]
KEYWORDS = {"let", "in", "where", "pub", "elim", "use", "λ"}
CRATES = {it.split(":")[0] for it in open("crates.txt", encoding="utf-8") if re.match(r"[a-z]", it)}


def snake(word):
    return re.sub(r"(?<=[a-z0-9])([A-Z])(?=[a-z]|$)", lambda it: "_" + it[1].lower(), word)


def files(part, end):
    for folder, folders, names in os.walk("crates"):
        folders[:] = sorted(it for it in folders if it != "out")
        parts = folder.split(os.sep)
        if len(parts) > 2 and parts[2] == part:
            yield from (os.path.join(folder, it) for it in sorted(names) if it.endswith(end))


def of_function(path):
    parts = path.split(os.sep)
    return parts[2] == "proofs" and len(parts) > 4


def turned(name):
    if name in APART or name in UNITS:
        return APART.get(name, name)
    parts = name.split("-")
    if parts[0] in CRATES - {"single"} and parts[-1] in ("single", "left", "counts") and len(parts) > 2:
        # a crate, a type where there is one, and a function, as the source spells it
        middle = parts[1:-1]
        types = middle[:1] if middle[0][:1].isupper() else []
        return "-".join([CRATE_NAMES.get(parts[0], parts[0]), *types, "_".join(middle[len(types):]), parts[-1]])
    if len(parts) == 2 and parts[1] in ("length", "listed") and snake(parts[0]) != parts[0]:
        return snake(parts[0]).replace("get_d", "get_or") + "-" + parts[1]
    if not re.match(r"[A-Za-z]", name):
        return name
    if re.match(r"[A-Z]", name) and "-" not in name:
        return name
    return "_".join(snake(it) for it in parts)


def declared():
    """Returns the declared names, and the labels of records and constructors among them."""
    names, labels = set(), set()
    for path in [*files("specs", ".antt"), *files("proofs", ".antt")]:
        if of_function(path):
            continue
        in_record = False
        for line in open(path, encoding="utf-8"):
            if re.match(r"\S", line):
                in_record = bool(re.match(r"(pub )?(record|data) ", line))
            head = re.match(r"(?:pub )?(?:record|data) (\S+)", line)
            found = DECLARED.match(line)
            for it in [head[1]] if head else found[1].split(" ") if found else []:
                if it not in KEYWORDS and re.match(r"[A-Za-z]", it):
                    names.add(it)
                    if in_record and not head:
                        labels.add(it)
    return names, labels


def local_to(text):
    """Returns what a function's proof file brings in of the repository's crates, and its own lemmas."""
    out = set()
    for crate, names in re.findall(r"(?m)^use Rattle\.(\w+)\.[^\n{]*\.\{([^}]*)\}", text):
        if crate in CRATES:
            out |= {it.split(" as ")[0].strip() for it in names.split(",")}
            out |= {it.split(" as ")[-1].strip() for it in names.split(",") if " as " not in it}
    for name, kind in re.findall(r"(?m)^(?:abbrev |unfoldable )?(?:pub )?([^\s:(){}=]+) : (\S+)", text):
        if not re.match(r"(tie|goal)\.", kind) and not name.endswith("-spec"):
            out.add(name)
    return out


def written(path, text, names, labels):
    own = of_function(path)
    here = local_to(text) if own else names
    source = path.endswith(".rt")
    before = ""
    out = []
    for it in TOKEN.findall(text):
        now = it
        if it.startswith(("--", "//")):
            now = re.sub(r"`([^`\s]+)`", lambda m: "`" + (names.get(m[1]) or m[1]) + "`", it)
        elif it in names and not (source and "-" in it):
            if before.endswith("."):
                step = own and re.search(r"(^|[\s(,])(c|\S*\.before|tie|goal|start|met)\.$", before)
                if it in labels and not step or not own:
                    now = names[it]
            elif it in here or (own and it in labels and re.search(r"[{;]\s*$", before)):
                now = names[it]
        out.append(now)
        before = (before + it)[-200:]
    return "".join(out)


def crates_renamed():
    """Renames the crates of CRATE_NAMES: their folders, their lines and words of crates.txt, and the paths that lead into them."""
    word = "|".join(CRATE_NAMES)
    new = lambda it: it[1] + CRATE_NAMES[it[2]]
    for path in [*files("src", ".rt"), *files("specs", ".antt"), *files("proofs", ".antt")]:
        with open(path, encoding="utf-8") as f:
            text = f.read()
        now = re.sub(r"(\bRattle\.)(%s)\b" % word, new, text)
        if path.endswith(".rt"):
            now = re.sub(r"(?<![\w:.])()(%s)(?=::)" % word, new, now)
        if now != text:
            with open(path, "w", encoding="utf-8") as f:
                f.write(now)
    with open("crates.txt", encoding="utf-8") as f:
        text = f.read()
    with open("crates.txt", "w", encoding="utf-8") as f:
        f.write(re.sub(r"(?m)(^|[ ])(%s)(?=[ :]|$)" % word, new, text))
    for a, b in CRATE_NAMES.items():
        os.rename(f"crates/{a}", f"crates/{b}")


def main():
    all_names, labels = declared()
    all_names |= set(VARIABLES)
    names = {it: turned(it) for it in all_names}
    names = {a: b for a, b in names.items() if a != b}
    # A lemma that would have a definition's name gets `_lem`.
    for a in sorted(names):
        if "-" in a and any(names[b] == names[a] for b in names if "-" not in b and b != a):
            names[a] += "_lem"
    changes, wrong = {}, 0
    for part, end in (("src", ".rt"), ("specs", ".antt"), ("proofs", ".antt")):
        for path in files(part, end):
            with open(path, encoding="utf-8") as f:
                text = f.read()
            now = written(path, text, names, labels)
            if now == text:
                continue
            changes[path] = now
            words = set(TOKEN.findall(text))
            to = {}
            for it in sorted(words):
                new = names.get(it)
                if new:
                    # a path, a function of src/ and a variable may have a definition's name
                    if new in to or new in all_names and new not in names and new in words:
                        print(f"{path}: {it} would be {new}, which is there ({to.get(new, new)})")
                        wrong = 1
                    to[new] = it
    print(f"respell: {len(names)} names, {len(changes)} files")
    if "--list" in sys.argv:
        for a, b in sorted(names.items()):
            print(f"{a} {b}")
    if wrong and "--force" not in sys.argv or "--check" in sys.argv:
        return wrong
    for path, text in changes.items():
        with open(path, "w", encoding="utf-8") as f:
            f.write(text)
    crates_renamed()
    return 0


if __name__ == "__main__":
    sys.exit(main())
