#!/usr/bin/env python3
"""Spells the repository's own definitions and lemmas as Rattle does: words in snake case.

usage: python3 tools/respell.py [FOLDER]     once, right after /opt/rattle/port/port.py, at the top of the repository (or of FOLDER)

`commitError` becomes `commit_error` and `total-append` becomes `total_append`. Types, modules, claims, functions of src/, fields,
exported C names, strings and what libraries declare keep their names, and so do names that Rattle makes, such as `invariant-loop-i`.
A lemma that would then have the name of a definition gets the ending `_lem`.
It turns the sources, proofs, must-fail edits and, in code spans, the pages. A second run changes nothing.
"""

import collections
import glob
import os
import re
import sys

WORD = re.compile(r'[^\s(){}.;,@"«»]+')
USE = re.compile(r"(?m)^ *(?:ghost |pub )*use ([^\s{;]+?)(?:\.\{([^}]*)\})?(?: as \S+?)?;?$")
DECLARED = re.compile(
    r"(?m)^ *(?:\| )?(?:(?:abbrev|pub|unfoldable|data|record|ruleset|infixr|mutual) )*([^\s(){}:;|]+)"
    r"(?: \{[^{}]*\}| \([^()]*\))*(?: :(?= |$)| = )"
)
ANTT_COMMENT = re.compile(r"(?:^|(?<=\s))--[^\n]*", re.M)
RUST_TEXT = re.compile(r'//[^\n]*|b?"(?:\\.|[^"\\])*"|b?\'(?:\\.|[^\'\\])\'')
SPAN = re.compile(r"`[^`\n]+`")
# names that Rattle makes for a function's proof
MADE = re.compile(r"(?:invariant|decreases|ghost|Need|After|In|At|loop)-")


def is_camel(word):
    return bool(re.match(r"[a-z]", word) and re.search(r"[a-z0-9₀-₉][A-Z]", word))


def is_dashed(word):
    return bool(re.search(r"\w-\w", word)) and not MADE.match(word)


def snake(word):
    word = re.sub(r"(?<=[a-z0-9₀-₉])[A-Z]", lambda m: "_" + m[0].lower(), word)
    return re.sub(r"(?<=\w)-(?=\w)", "_", word)


def read(path):
    with open(path, encoding="utf-8") as f:
        return f.read()


def find(root, pattern):
    return sorted(p for p in glob.glob(os.path.join(root, pattern), recursive=True) if "/out/" not in p)


def antt_files(root):
    return find(root, "crates/*/specs/**/*.antt") + find(root, "crates/*/proofs/**/*.antt")


def collect(root):
    """Words of the sources to turn, which of them are declared here, and those that libraries declare."""
    own = {os.path.basename(p) for p in glob.glob(os.path.join(root, "crates", "*"))}
    words, declared, library = set(), set(), set()
    for path in antt_files(root) + find(root, "crates/*/src/**/*.rt"):
        text = read(path)
        for use in USE.finditer(text):
            parts = use[1].split(".")
            if not (parts[0] == "Rattle" and len(parts) > 1 and parts[1] in own) and use[2]:
                library.update(n.strip().split(" as ")[0] for n in use[2].split(","))
        if path.endswith(".antt"):
            code = USE.sub("", ANTT_COMMENT.sub("", text))
            declared.update(m[1] for m in DECLARED.finditer(code))
            words.update(w for w in WORD.findall(code) if is_camel(w) or is_dashed(w))
    return words, declared, library


def table(root):
    words, declared, library = collect(root)
    turned = {w: snake(w) for w in sorted(words) if w not in library}
    taken = {turned[w] for w in turned if is_camel(w)}
    for w in list(turned):
        if is_dashed(w) and not is_camel(w) and (turned[w] in taken or turned[w] in declared):
            turned[w] += "_lem"
    for w in declared & taken:
        turned[w] = w + "_lem"
    meet = collections.defaultdict(set)
    for old, new in turned.items():
        meet[new].add(old)
    clashes = {new: olds for new, olds in meet.items() if len(olds) > 1 or new in declared and new not in turned}
    return turned, clashes


def turn_antt(text, turned):
    def comment(m):
        spans = SPAN.sub(lambda s: WORD_IN_SPAN.sub(lambda w: turned.get(w[0], w[0]), s[0]), m[0])
        return re.sub(r"\w+", lambda w: turned.get(w[0], w[0]) if is_camel(w[0]) else w[0], spans)

    out, last = [], 0
    for m in ANTT_COMMENT.finditer(text):
        out.append(WORD.sub(lambda w: turned.get(w[0], w[0]), text[last : m.start()]))
        out.append(comment(m))
        last = m.end()
    out.append(WORD.sub(lambda w: turned.get(w[0], w[0]), text[last:]))
    return "".join(out)


WORD_IN_SPAN = re.compile(r"[^\s(){}.;,@\"«»`]+")


def turn_rust(text, turned):
    def plain(t):
        t = re.sub(r"(?s)ghost use [^;]*;", lambda m: WORD.sub(lambda w: turned.get(w[0], w[0]), m[0]), t)
        return re.sub(r"\w+", lambda w: turned.get(w[0], w[0]) if is_camel(w[0]) else w[0], t)

    out, last = [], 0
    for m in RUST_TEXT.finditer(text):
        out.append(plain(text[last : m.start()]))
        out.append(plain(m[0]) if m[0].startswith("//") else m[0])
        last = m.end()
    out.append(plain(text[last:]))
    return "".join(out)


def turn_edit(text, turned):
    lines, kind = [], "antt"
    for line in text.split("\n"):
        if line.startswith("file: "):
            kind = "rust" if line.endswith(".rt") else "antt"
        elif line.startswith(("old: ", "new: ")):
            line = line[:5] + (turn_rust if kind == "rust" else turn_antt)(line[5:], turned)
        elif line.startswith("#"):
            line = re.sub(r"\w+", lambda w: turned.get(w[0], w[0]) if is_camel(w[0]) else w[0], line)
        lines.append(line)
    return "\n".join(lines)


def turn_page(text, turned):
    return SPAN.sub(lambda s: WORD_IN_SPAN.sub(lambda w: turned.get(w[0], w[0]), s[0]), text)


def main(argv):
    root = argv[0] if argv else "."
    turned, clashes = table(root)
    if clashes:
        print("names that fall together:", clashes, file=sys.stderr)
        return 1
    kinds = [
        (antt_files(root), turn_antt),
        (find(root, "crates/*/src/**/*.rt"), turn_rust),
        (find(root, "crates/*/must-fail/*.edit"), turn_edit),
        (find(root, "*.md") + find(root, "docs/**/*.md") + find(root, "tests/**/*.md"), turn_page),
    ]
    changed = 0
    for paths, turn in kinds:
        for path in paths:
            old = read(path)
            new = turn(old, turned)
            if new != old:
                with open(path, "w", encoding="utf-8") as f:
                    f.write(new)
                changed += 1
    print(f"respell: {len(turned)} names, {changed} files")
    return 0


if __name__ == "__main__":
    sys.exit(main(sys.argv[1:]))
