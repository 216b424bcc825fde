#!/usr/bin/env python3
"""Spells the repository's own definitions and lemmas as the library spells its own.

usage: tools/respell.py [--list] [FOLDER]     FOLDER: the top of the repository (default: the one above this file)

A word is in snake case: everyBelow -> every_below. In a lemma's name a dash stays between two names, as in length-tabulate, and a plain word is added
with an underscore: zeroing-start -> zeroing_start. A type and a module stay, and so does whatever is a name of the source (functions, parameters,
fields, constants) or of the library. A lemma that would fall together with a definition or a function ends in _lem. The files specs/Contracts.antt become
specs/Promises.antt, since Rattle now makes a module specs.contracts. It reads every crate's specs/, proofs/ and clauses.
--list prints the table and changes nothing. It stops where two names would fall together.
"""
import collections
import os
import re
import sys

W = r"[^\s(){}.;,@\"«»\[\]\\`]+"
TOKEN = re.compile(W)
HEAD = re.compile(r"^(\s*)((?:pub |abbrev |unfoldable )*)((?:record|data)\s+)?(" + W + r")( :(?: |$)|(?= .*(?:: Type|where))| where)")
USE = re.compile(r"^\s*(?:pub )?use ([^\s{]+?)\.?(?:\{(.*)\})?\s*$")
GHOST_USE = re.compile(r"^\s*ghost use ([^\s{]+?)\.?(?:\{(.*)\});\s*$")


def snake(part):
    part = re.sub(r"([a-z0-9'])([A-Z][a-z])", r"\1_\2", part)
    part = re.sub(r"([a-z0-9'])([A-Z]+)$", r"\1_\2", part)
    part = re.sub(r"([a-z])([A-Z])", r"\1_\2", part)
    return part.lower()


def files(top, ends, *below):
    for part in below or ("",):
        for folder, dirs, names in os.walk(os.path.join(top, part)):
            dirs[:] = sorted(d for d in dirs if d not in ("out", "target", ".git"))
            for name in sorted(names):
                if name.endswith(ends):
                    yield os.path.join(folder, name)


def read(path):
    with open(path, encoding="utf-8", newline="") as it:
        return it.read()


def names_of(top):
    """Returns the names that the repository's antt declares, those among them that compute, and the names that come from the library."""
    declared, computing, library = set(), set(), set()
    ours = {d for d in os.listdir(os.path.join(top, "crates"))}
    for path in files(top, ".antt", "crates"):
        for line in read(path).split("\n"):
            line = re.sub(r"--( .*)?$", "", line)
            m = USE.match(line)
            if m:
                module = m.group(1).split(".")
                if not (module[0] == "Rattle" and len(module) > 1 and module[1] in ours):
                    library.update(it.strip().split(" as ")[0] for it in (m.group(2) or "").split(",") if it.strip())
                continue
            m = re.match(r"^(\s*)((?:pub |abbrev |unfoldable )*)(record|data)\s+(" + W + ")", line)
            if m:
                computing.add(m.group(4))
                continue
            m = re.match(r"^(\s*)((?:pub |abbrev |unfoldable )*)(" + W + r") :(?: |$)", line)
            if m:
                name = m.group(3)
                # what a proof calls the goals that it answers goes with the proof's form
                if "tie.Need" not in line and not name.endswith(("_spec", "-spec")) and not name.startswith(("invariant-", "decreases-")):
                    declared.add(name)
                if "abbrev" in m.group(2) or "unfoldable" in m.group(2) or (m.group(1) and "pub" in m.group(2)):
                    computing.add(name)
    for path in files(top, ".rt", "crates"):
        for line in read(path).split("\n"):
            m = GHOST_USE.match(line)
            if m:
                module = m.group(1).split(".")
                if not (module[0] == "Rattle" and len(module) > 1 and module[1] in ours):
                    library.update(it.strip() for it in m.group(2).split(","))
    return declared, computing, library


def source_names(top):
    """Returns the names of functions, parameters, locals, fields and constants of src/."""
    out = set()
    for path in files(top, ".rt", "crates"):
        text = re.sub(r"//.*", "", read(path))
        out.update(re.findall(r"\b(?:fn|mod|let(?: mut)?|const|static|struct|enum) (\w+)", text))
        out.update(re.findall(r"\b(\w+): ", text))
    return out


def bare_words(top):
    """Returns the words of antt files that stand alone: neither a part of a module's path nor a field."""
    out = set()
    for path in files(top, ".antt", "crates"):
        text = re.sub(r"(?m)--( .*)?$", "", read(path))
        for m in TOKEN.finditer(text):
            if text[m.start() - 1 : m.start()] != "." and text[m.end() : m.end() + 1] != ".":
                out.add(m.group(0))
    return out


def function_names(top):
    return {it for path in files(top, ".rt", "crates") for it in re.findall(r"\bfn (\w+)", read(path))}


def table(top):
    declared, computing, library = names_of(top)
    source = source_names(top)
    words = {snake(it) for it in computing | library if "-" not in it and re.match(r"[a-z]", it)} | {it for it in source if re.match(r"[a-z]", it)}
    words |= {snake(it) for it in declared if "-" not in it and re.match(r"[a-z]", it)} & {"suc", "zero"}
    words |= {"suc", "zero", "cons", "nil", "cond", "not", "map", "set", "take", "drop", "append", "length"}
    out = {}
    for name in declared:
        parts = name.split("-")
        if name in library or "" in parts:
            continue
        if re.match(r"[A-Z]", name):
            # a constant, or what a proof calls a value: its dashes join plain words
            if len(parts) > 1:
                out[name] = "_".join(parts)
            continue
        if not re.match(r"[a-z]", name):
            continue
        new = snake(parts[0])
        for before, part in zip(parts, parts[1:]):
            joint = "-" if snake(before) in words and snake(part) in words else "_"
            new += joint + snake(part)
        if new != name:
            out[name] = new
    out["isTag"] = "IsTag"
    return out, declared, library, source


def clauses(text):
    """Yields the spans of a .rt file that are antt: ghost uses, clauses, ghost items and comments."""
    for m in re.finditer(r"(?m)^\s*ghost use [^;]*;", text):
        yield m.span()
    for m in re.finditer(r"\b(?:requires|ensures|ghost)\*?(?: \w+)?:?(?: =)? \{", text):
        depth, at = 1, m.end()
        while depth:
            depth += {"{": 1, "}": -1}.get(text[at], 0)
            at += 1
        yield (m.end(), at)
    for m in re.finditer(r"//[^\n]*", text):
        yield m.span()


def respelled(text, names):
    def one(m):
        word = m.group(0)
        # a part of a path or a field that is spelled in snake case is the source's
        if "_" in word and "-" not in word and (text[m.start() - 1 : m.start()] == "." or text[m.end() : m.end() + 1] == "."):
            return word
        return names.get(word, word)

    return TOKEN.sub(one, text)


def commented(text, names):
    """A comment: a dashed word of prose that is spelled like a lemma of another file stays prose, unless it stands in backticks."""
    return TOKEN.sub(lambda m: names.get(m.group(0), m.group(0)) if "-" not in m.group(0) or text[m.start() - 1 : m.start()] == "`" else m.group(0), text)


def antt_respelled(text, names):
    here = set(re.findall(r"(?m)^\s*(?:pub |abbrev |unfoldable )*(" + W + r") :(?: |$)", text))
    few = {old: new for old, new in names.items() if "-" not in old or old in here}
    out, at = "", 0
    for m in re.finditer(r"(?m)--( .*)?$", text):
        out += respelled(text[at : m.start()], names) + TOKEN.sub(lambda t: (few if m.group(0)[t.start() - 1 : t.start()] != "`" else names).get(t.group(0), t.group(0)), m.group(0))
        at = m.end()
    return out + respelled(text[at:], names)


def main(argv):
    only_list = "--list" in argv
    argv = [it for it in argv if it != "--list"]
    top = argv[0] if argv else os.path.dirname(os.path.dirname(os.path.realpath(__file__)))
    names, declared, library, source = table(top)
    used = collections.Counter()
    for path in files(top, ".antt", "crates"):
        used.update(TOKEN.findall(re.sub(r"(?m)--( .*)?$", "", read(path))))
    back = collections.defaultdict(set)
    for old, new in names.items():
        back[new].add(old)
    bare = bare_words(top)
    functions = function_names(top)
    for new, olds in back.items():
        # a definition keeps the name; a lemma that would fall together with it, or with a function, is told by its ending
        for old in sorted(olds):
            if "-" in old and (len(olds) > 1 or new in library or new in declared or new in functions):
                names[old] = new + "_lem"
        if any("-" not in old for old in olds) and new in bare:
            names[new] = new + "_lem"
    back = collections.defaultdict(set)
    for old, new in names.items():
        back[new].add(old)
    if only_list:
        for old, new in sorted(names.items()):
            print(old, new)
        return 0
    together = sorted(new for new, olds in back.items() if len(olds) > 1 or (new in bare and new not in names))
    if together:
        print("respell: would fall together: " + " ".join(together), file=sys.stderr)
        return 1
    turned = 0
    for path in files(top, (".antt", ".rt"), "crates"):
        old = read(path)
        if path.endswith(".antt"):
            new = antt_respelled(old, names)
        else:
            new, at = "", 0
            for a, b in sorted(clauses(old)):
                if a >= at:
                    new, at = new + old[at:a] + (commented if old.startswith("//", a) else respelled)(old[a:b], names), b
            new += old[at:]
        new = re.sub(r"\b(Rattle\.\w+\.specs)\.Contracts\b", r"\1.Promises", new)
        if path.endswith(os.path.join("specs", "Lib.antt")):
            new = re.sub(r"(?m)^pub mod Contracts$", "pub mod Promises", new)
        if new != old:
            with open(path, "w", encoding="utf-8", newline="") as it:
                it.write(new)
            turned += 1
    for path in list(files(top, "Contracts.antt", "crates")):
        if os.path.basename(os.path.dirname(path)) == "specs" and os.path.basename(path) == "Contracts.antt":
            os.rename(path, os.path.join(os.path.dirname(path), "Promises.antt"))
    print(f"respell: {len(names)} names, {turned} files")
    return 0


if __name__ == "__main__":
    raise SystemExit(main(sys.argv[1:]))
