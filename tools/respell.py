#!/usr/bin/env python3
"""Spells the repository's own names of definitions and laws in snake case, and the facts among them in camel case.

usage: respell.py [--list] [FOLDER]     the folder of the repository, else the one above this file

It reads which names the .antt files of specs/ and proofs/ declare, and writes `atOrBelow` as `at_or_below` and `number-steps` as `number_steps`
wherever such a name stands as a whole word: in .antt files, in the ghost lines, contracts and comments of .rt files, and in must-fail edits.
Names of a library, names that the toolchain makes (goals, steps, records of a proof) and functions of src/ stay. Where a law falls together
with a definition, the law gets `_lem` behind its name. It is run once; a second run changes nothing. --list prints what becomes what.
"""

import collections
import os
import re
import sys

# Facts in lower case, and names with a dot inside.
OTHER = {
    "okOver": "OkOver",
    "pointOk": "PointOk",
    "numberOk": "NumberOk",
    "lineOk": "LineOk",
    "planeOk": "PlaneOk",
    "andCounts": "AndCounts",
    "first·shift": "first_shift",
    "Words·signed": "words_signed",
    "Words·word": "words_word",
}

# Names that only a file's head has.
IN_NOTES = {"inRange": "in_range", "solidAlong": "solid_along"}

# A fact whose name is a field's and a law's elsewhere: in this crate alone.
IN_CRATE = {"lines": {"keyed": "IsKeyed"}}

# What stood under a name of two parts before a library's name fell together with it: the law and the definition have the same spelling now.
LAWS = ("number_fits", "no_room", "too_long", "falls_at", "in_order", "too_many", "on_line", "holds_by", "most_bytes")

WORD = re.compile(r"[^\s(){}\[\];,.λ«»\"|:`]+")
DECLARED = re.compile(r"^[ ]*(?:(?:abbrev|pub|unfoldable) )*((?:[^\s(){}\[\];,.:«»]+ )+):(?= |$)", re.M)
TYPED = re.compile(r"^[ ]*(?:pub )?(?:record|data) (\S+)", re.M)
BOUND = re.compile(r"[({]((?:[^\s(){}\[\];,.:«»]+ )+): ")
GOAL = re.compile(r"^((?:abbrev )?(?:pub )?)(\S+) : (?:tie\.(?:Need|invariant|decreases)|goal\.)", re.M)


def of_a_function(path):
    """Whether a file is of a function's proof, in a folder of its own: what it answers has names that the toolchain makes."""
    folder, name = os.path.split(path)
    return os.path.basename(folder) != "proofs" and name in ("Proof.antt", "Answers.antt", "Invariants.antt")


USE = re.compile(r"^(?:pub )?use ([\w.\-+]+)\.\{([^}]*)\}", re.M)
OWN_MODULE = re.compile(r"Rattle\.\w+\.(?:specs|proofs)\.[A-Z]\w*")


# All that was declared, for the pages.
LISTED = set()


def read(path):
    with open(path, encoding="utf-8") as it:
        return it.read()


def files(root, *endings):
    for folder, dirs, names in os.walk(os.path.join(root, "crates")):
        dirs[:] = sorted(d for d in dirs if d != "out")
        for name in sorted(names):
            if name.endswith(endings):
                yield os.path.join(folder, name)


def without_notes(text):
    text = re.sub(r"--[^\n]*", "", text)
    return re.sub(r"^(?:pub )?use .*$", "", text, flags=re.M)


def snake(name):
    """`atOrBelow` and `at-or-below` as `at_or_below`, `⊕-comm` as `⊕_comm`; a name that begins with a capital is a type, and stays."""
    name = name.replace("-", "_")
    if name[0].islower():
        name = re.sub(r"(?<=[a-z0-9'])([A-Z])", lambda m: "_" + m.group(1).lower(), name)
        name = re.sub(r"[A-Z]", lambda m: m.group(0).lower(), name)
    return name


def names(root):
    """What becomes what."""
    own, library, goals = set(), set(), set()
    for path in files(root, ".antt"):
        text = read(path)
        for module, items in USE.findall(text):
            if not OWN_MODULE.fullmatch(module) or module.split(".")[1] == "std":
                library |= {it.split(" as ")[0].strip() for it in items.split(",")}
            own |= {it.split(" as ")[1].strip() for it in items.split(",") if " as " in it}
        code = without_notes(text)
        if of_a_function(path):
            made = {name for _, name in GOAL.findall(code)}
            goals |= made
        else:
            made = set()
        for group in DECLARED.findall(code):
            own |= set(group.split()) - made
        own |= set(TYPED.findall(code))
        if not of_a_function(path):
            for group in BOUND.findall(code):
                own |= set(group.split())
    own = {n for n in own if not n.endswith("-spec")}
    LISTED.update(own)
    out, taken = {}, collections.defaultdict(set)
    for name in sorted(own - library):
        if name in OTHER:
            out[name] = OTHER[name]
        elif (name[0].islower() or name[0] == "⊕") and snake(name) != name:
            out[name] = snake(name)
    aliases = {it.split(" as ")[1].strip() for path in files(root, ".antt", ".rt") for it in re.findall(r"[\w·]+ as [\w·]+", read(path))}
    out.update({k: v for k, v in OTHER.items() if k in aliases})
    # names that fall together: the definition keeps the plain one
    for name, new in out.items():
        taken[new].add(name)
    for new, olds in taken.items():
        here = new in own or new in library
        if len(olds) == 1 and not here:
            continue
        for old in olds:
            if "-" in old:
                out[old] = new + "_lem"
        if here and any("-" not in old for old in olds):
            if new not in LAWS:
                raise SystemExit(f"respell: {new} stands for {sorted(olds)} and for another")
            out[new] = new + "_lem"
    again = collections.Counter(out.values())
    for new, n in again.items():
        if n > 1 or (new in own and new not in out) or new in library:
            raise SystemExit(f"respell: {new} falls together with another name")
    return out, goals


# What a proof by hand says behind a dot is a field, most of them made by the toolchain: only an own record's stay own.
FIELD = re.compile(r"^[ ]+(?:pub )?([^\s(){}\[\];,.:«»]+) : ", re.M)


def fields(root):
    out = set()
    for path in files(root, ".antt"):
        if of_a_function(path):
            continue
        block = False
        for line in without_notes(read(path)).split("\n"):
            if re.match(r"^[ ]*(?:pub )?record ", line):
                block = True
                continue
            m = FIELD.match(line)
            if block and m:
                out.add(m.group(1))
            elif block and line.strip() and not line.startswith("    "):
                block = False
    return out


def respelled(text, out, keep=lambda text, at, word: False):
    def word(m):
        w = m.group(0)
        if w in out and not keep(text, m.start(), w):
            return out[w]
        return w

    return WORD.sub(word, text)


def pages(root):
    yield os.path.join(root, "README.md")
    docs = os.path.join(root, "docs")
    for name in sorted(os.listdir(docs)) if os.path.isdir(docs) else []:
        if name.endswith(".md"):
            yield os.path.join(docs, name)


def page(path, out):
    """A page cites names between backticks."""
    text = read(path)
    def word(m):
        w = m.group(0)
        return out.get(w) or (snake(w) if "-" in w and snake(w) in LISTED else w)

    new = re.sub(r"`[^`\n]+`", lambda m: WORD.sub(word, m.group(0)), text)
    if new == text:
        return 0
    with open(path, "w", encoding="utf-8") as it:
        it.write(new)
    return 1


def main(argv):
    root = os.path.dirname(os.path.dirname(os.path.realpath(__file__)))
    if argv and not argv[-1].startswith("-"):
        root = argv[-1]
    out, goals = names(root)
    if "--list" in argv:
        for old, new in sorted(out.items()):
            print(old, new)
        return 0
    own_fields = fields(root)
    changed = 0
    for path in files(root, ".antt", ".rt", ".edit"):
        text = read(path)
        everywhere = out
        out = everywhere | IN_NOTES | IN_CRATE.get(os.path.relpath(path, os.path.join(root, "crates")).split(os.sep)[0], {})
        if of_a_function(path):
            here = {name for _, name in GOAL.findall(text)}
            aliases = set(re.findall(r"^use \S+ as (\S+)", text, re.M)) | {"tie"}

            def keep(text, at, w, here=here, aliases=aliases):
                if w in here:
                    return True
                if at and text[at - 1] == ".":
                    head = re.search(r"([^\s(){}\[\];,.]*)\.$", text[:at]).group(1)
                    if head in ("tie", "goal"):
                        return True
                    return w not in own_fields and head not in aliases
                return False

            new = respelled(text, out, keep)
        else:
            new = respelled(text, out)
        if new != text:
            with open(path, "w", encoding="utf-8") as it:
                it.write(new)
            changed += 1
        out = everywhere
    changed += sum(page(path, out) for path in pages(root))
    print(f"respell: {len(out)} names, {changed} files")
    return 0


if __name__ == "__main__":
    raise SystemExit(main(sys.argv[1:]) or 0)
