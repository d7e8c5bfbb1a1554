#!/usr/bin/env python3
"""Brings the repository's own definitions and lemmas to today's spelling: words in snake case, types in camel case.

usage: tools/respell.py        at the top, once, on the files as port.py leaves them

A name with a dash that stands in specs/ or proofs/ (a function's Proof.antt aside) turns, if no import takes it from the library:
Goes-into becomes GoesInto, choice-size choice_size, times-++ stays. It turns as a whole word, in the code of .antt and .rt files, and
in comments and pages between backticks. What the library or Rattle itself declares stays, and so do strings, exported names and
functions of src/. Names that would fall together stop the script before anything is written."""
import collections, os, re, subprocess, sys

WORD = r'[^\s(){}.;,@"«»]+'
DECLARED = re.compile(r"^\s*(?:(?:unfoldable|abbrev|pub|record|data|ruleset) +)*(%s)(?: \([^)]*\)| \{[^}]*\})* :(?= |$)" % WORD)
IMPORT = re.compile(r"^(?:pub )?(?:ghost )?use ([^\s{;]+?)\.\{([^}]*)\}", re.M)
OWN = re.compile(r"Rattle\.(?!std\.|core\.|io\.|libc\.|os\.|check\.)")
# a comment, a string, or code
PIECE = re.compile(r'(--[^\n]*|//[^\n]*|"(?:[^"\\\n]|\\.)*")')
SPAN = re.compile(r"`([^`\n]+)`")
# words of the command, and a helper that the library has under the same name
STAY = {"carry-forward", "read-back", "walk-back"}
AMBIGUOUS = {"or-true"}
# made by Rattle
MADE = {"reencode-rows"}
# these would have the name of a Rust type
OTHER = {
    "Choice-record": "TableRecord",
    "Clause-read": "ClauseIsRead",
    "Answer-read": "AnswerOf",
    "Formula-read": "FormulaOf",
    "Log-read": "LogOf",
}
# as port.py leaves them
LEFT = {"Laid_out": "LaidOut", "one-Holds": "one_holds"}
# an import that would have the name of a function of its crate: another name there
CLASHES = {}


def files(*endings):
    for root, folders, names in os.walk("crates"):
        folders[:] = sorted(f for f in folders if f != "out")
        for name in sorted(names):
            if name.endswith(endings):
                yield os.path.join(root, name)


def respelled(name):
    if name in OTHER:
        return OTHER[name]
    if re.match(r"[A-Z][a-z]", name):
        return "".join(part[:1].upper() + part[1:] for part in name.split("-"))
    first, *rest = name.split("-")
    out = first
    for part in rest:
        joined = part[:1].isalnum() and out[-1:].isalnum() or out[-1:] == "'" and part[:1].isalnum()
        out += ("_" if joined else "-") + part
    return out


def table():
    names, imported = set(), collections.defaultdict(set)
    library = set(MADE)
    for path in files(".antt", ".rt"):
        with open(path, encoding="utf-8") as f:
            for module, items in IMPORT.findall(f.read()):
                if not OWN.match(module):
                    library.update(w for item in items.split(",") for w in item.strip().split(" as "))
    for path in files(".antt", ".rt"):
        with open(path, encoding="utf-8") as f:
            text = f.read()
        for module, items in IMPORT.findall(text):
            for item in items.split(","):
                name, _, other = item.strip().partition(" as ")
                imported[name.strip()].add(bool(OWN.match(module)))
                if "-" in other and not other.startswith("#"):
                    names.add(other.strip())
        if path.endswith(".antt") and not path.endswith("/Proof.antt"):
            names.update(m[1] for m in map(DECLARED.match, text.splitlines()) if m and "-" in m[1] and m[1] != "--")
            code = "".join(PIECE.split(text)[::2])
            names.update(w for w in re.findall(r"(?<![^\s(){};,@])%s" % WORD, code) if re.match(r"[^\W\d]\S*-", w) and w not in library)
    names -= AMBIGUOUS
    turned = {n: respelled(n) for n in names if respelled(n) != n} | LEFT
    together = collections.defaultdict(set)
    for name in names | set(imported):
        together[turned.get(name, name)].add(name)
    bad = [sorted(v) for k, v in together.items() if len(v) > 1]
    bad += [n for n in turned if False in imported.get(n, ())]
    if bad:
        sys.exit("respell: these fall together or are the library's: %s" % bad)
    return turned


def turn(text, turned):
    return re.sub(WORD, lambda m: turned.get(m[0], m[0]), text)


def in_spans(text, turned):
    return SPAN.sub(lambda m: "`%s`" % turn(m[1], turned), text)


def main():
    turned = table()
    for path in files(".antt", ".rt"):
        with open(path, encoding="utf-8") as f:
            text = f.read()
        pieces = PIECE.split(text)
        for i, piece in enumerate(pieces):
            if i % 2 == 0:
                pieces[i] = turn(piece, turned)
            elif piece.startswith(("--", "//")):
                pieces[i] = in_spans(piece, turned)
        new = "".join(pieces)
        for old, other in CLASHES.get(path, ()):
            new = re.sub(r"(?<![^\s(){}.;,])%s(?![^\s(){}.;,])" % re.escape(old), other, new)
        if new != text:
            with open(path, "w", encoding="utf-8") as f:
                f.write(new)
    stays = lambda span: span in STAY or span.startswith("./") or "--" in span
    for name in sorted(os.listdir("docs")):
        if name.endswith(".md") and name != "PORT.md":
            path = os.path.join("docs", name)
            with open(path, encoding="utf-8") as f:
                text = f.read()
            new = SPAN.sub(lambda m: m[0] if stays(m[1]) else "`%s`" % turn(m[1], turned), text)
            if new != text:
                with open(path, "w", encoding="utf-8") as f:
                    f.write(new)
    for crate in sorted(os.listdir("crates")):
        subprocess.run(["rt", "fmt"], cwd=os.path.join("crates", crate), stdout=subprocess.DEVNULL, check=True)
    print("respell: %d names" % len(turned))


main()
