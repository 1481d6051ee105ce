#!/usr/bin/env python3
"""Brings this repository's own names of antt to one spelling: words in snake case (`isBlank` and `is-blank` are `is_blank`), types and
modules in camel case. Names of the library, of Rattle source and of what a check makes keep theirs.
Run once at the top, behind the kit's port.py: usage: tools/respell.py [--say]. With --say it only lists what falls together."""

import collections
import glob
import os
import re
import shutil
import sys

# The library of the Rattle kit, beside its command.
KIT = os.path.join(os.path.dirname(os.path.dirname(os.path.realpath(shutil.which("rt") or "rt"))), "rattle")
TOKEN = re.compile(r"[^\s(){}\[\],;.∷:·`\"]+")
DECLARED = re.compile(r"^\s*(?:(?:pub|abbrev|unfoldable|axiom|ruleset|instance)\s+)*([^\s(){}\[\],;.:`\"=][^(){}\[\],;.:`\"=]*?)\s*:(?=\s)")
NAME = re.compile(r"^[a-z][^\s]*$")
# Laws that the first script gave the name that a definition is to have: the definition keeps it.
LAWS = ["last_line", "go_on", "step_from", "opening_of", "no_key"]
# A field of a record, by the same cause.
FIELDS = [("is_white", "white_is")]
SKIP = {"pub", "abbrev", "unfoldable", "axiom", "ruleset", "instance", "let", "in", "module", "λ", "|"}


def snake(name):
    name = re.sub(r"(?<=[a-z0-9])(?=[A-Z])", "_", name)
    return name.replace("-", "_").lower() if re.search("[A-Z]", name) else name.replace("-", "_")


def make_way(text):
    """The text where those laws and fields have made way for the definitions."""
    for name in LAWS:
        text = re.sub(rf"(?<![\w.-]){name}(?![\w'.-])", name + "_lem", text)
    for name, to in FIELDS:
        text = re.sub(rf"(?<=\w\.){name}(?![\w'.-])|(?<=^  pub ){name}(?= : )|^(\s+){name}(?= = )", lambda m: (m[1] or "") + to, text, flags=re.M)
    return text


def own_files():
    out = []
    for kind in ("specs", "proofs"):
        out += glob.glob(f"crates/*/{kind}/**/*.antt", recursive=True)
    return sorted(out)


def library_names():
    out = set()
    for path in glob.glob(KIT + "/**/*.antt", recursive=True):
        with open(path, encoding="utf-8", errors="replace") as f:
            for line in f:
                m = DECLARED.match(line)
                if m:
                    out.update(m[1].split())
    return out


def code_only(text):
    """The text without its comments."""
    return "\n".join(code_of(line)[0] for line in text.split("\n"))


def code_of(line):
    """A line of antt, and its comment."""
    m = re.search(r"(?:^|\s)--(?=\s|$)", line)
    return (line, "") if not m else (line[: m.start()], line[m.start() :])


def turned(text, new):
    """The text with these names turned, in comments only between backticks."""
    turn = lambda m: new.get(m[0], m[0])
    out = []
    for line in text.split("\n"):
        code, said = code_of(line)
        said = re.sub(r"`[^`]*`", lambda m: TOKEN.sub(turn, m[0]), said)
        out.append(TOKEN.sub(turn, code) + said)
    return "\n".join(out)


def by_hand(path):
    """The proof of one function, whose names a check makes."""
    return os.path.basename(path) in ("Proof.antt", "Invariants.antt", "Answers.antt")


def declared(files, texts):
    out = collections.Counter()
    for path in files:
        if by_hand(path):
            continue
        for line in code_only(texts[path]).split("\n"):
            m = DECLARED.match(line)
            if m:
                for word in m[1].split():
                    if word not in SKIP and NAME.match(word):
                        out[word] += 1
            # what a `data` lists on one line, and the parameters of a signature or a section, are declared too
            for m in re.finditer(r"[({]([^(){}:]+?) :(?=\s)", line):
                for word in m[1].split():
                    if NAME.match(word):
                        out[word] += 1
    return out


def imported(text):
    """Names that a file takes from elsewhere than the repository's own crates."""
    crates = {os.path.basename(d) for d in glob.glob("crates/*")}
    out = set()
    for m in re.finditer(r"^\s*(?:pub )?use ([^\s{]+)\.\{([^}]*)\}", text, re.M):
        parts = m[1].split(".")
        if parts[0] == "Rattle" and len(parts) > 1 and parts[1] in crates:
            continue
        for word in re.split(r",\s*", m[2]):
            out.update(w for w in word.split() if w != "as")
    return out


def main():
    say = "--say" in sys.argv
    files = own_files()
    texts = {}
    for path in files:
        with open(path, encoding="utf-8") as f:
            texts[path] = make_way(f.read())
    foreign = set()
    for path in files:
        foreign |= imported(texts[path])
    library = library_names()
    own = declared(files, texts)
    new = {}
    kept = set()
    for name in own:
        to = snake(name)
        if to == name:
            continue
        if name in foreign:
            kept.add(name)
            continue
        new[name] = to
    # a law that would have its definition's name
    for name, to in list(new.items()):
        if "-" in name and any(other != name and new.get(other, other) == to for other in own):
            new[name] = to + "_lem"
    # other words with a dash that the library does not have are names of a place in a proof: they follow
    for path in files:
        if by_hand(path):
            continue
        for word in set(TOKEN.findall(code_only(texts[path]))):
            if word not in new and re.match(r"^[a-z][A-Za-z0-9_']*([-][A-Za-z0-9_']+)+$", word) and word not in library and word not in foreign:
                new[word] = snake(word)
    # names that would fall together in one file
    for path in files:
        words = set(TOKEN.findall(code_only(texts[path])))
        seen = collections.defaultdict(set)
        for word in words:
            seen[new.get(word, word)].add(word)
        for to, froms in seen.items():
            if len(froms) > 1:
                print(f"together: {path}: {', '.join(sorted(froms))}: {to}")
    print(f"respell: {len(new)} names; kept, since the library has them: {', '.join(sorted(kept))}")
    if say:
        return
    turn = lambda m: new.get(m[0], m[0])
    for path in files:
        with open(path, "w", encoding="utf-8") as f:
            f.write(turned(texts[path], new))
    # in source only clauses, ghost lines and comments have such names
    for path in sorted(glob.glob("crates/*/src/**/*.rt", recursive=True)):
        with open(path, encoding="utf-8") as f:
            text = f.read()
        camel = re.compile(r"(?<![\w'\"-])[a-z][a-z0-9]*[A-Z]\w*(?![\w'-])")
        with open(path, "w", encoding="utf-8") as f:
            f.write(camel.sub(turn, text))
    for path in sorted(glob.glob("crates/*/must-fail/*.edit")):
        with open(path, encoding="utf-8") as f:
            lines = f.read().split("\n")
        antt = any(line.startswith("file:") and line.endswith(".antt") for line in lines)
        for i, line in enumerate(lines):
            if not line.startswith(("old:", "new:")):
                continue
            line = re.sub(r"\((\w+) \.(\w+)\)", r"\1.\2", line) if antt else line
            line = re.sub(r"(?<=[{, ])_([^\w\s,{}]+)_(?=[,}])", r"◌\1◌", line)
            line = re.sub(r"Rattle·(\w+)·specs\.specs", r"Rattle.\1.specs", line)
            line = re.sub(r"Rattle·(\w+)", r"Rattle.\1", line)
            lines[i] = TOKEN.sub(turn, line) if antt or "ghost use" in line else line
        with open(path, "w", encoding="utf-8") as f:
            f.write("\n".join(lines))


main()
