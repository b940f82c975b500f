#!/usr/bin/env python3
"""Brings the repository's own definitions and lemmas to today's spelling: words in snake case (PORTING.md, part 3).

usage: python3 tools/respell.py     once, at the top, after port.py

Names of specs/ and proofs/ alone are turned: those of src/, of C, of libraries and strings stay, and so do types and modules, which
are in camel case. A lemma whose name would fall together with a definition's gets `_lem` behind it. Comments and pages are
turned between back quotes alone; must-fail edits also get the spelling that port.py gave their files.
"""
import collections
import os
import re
import sys

ID = r"[^\W\d][\w'?!]*(?:-[\w'?!]+)*"
WORD = re.compile(ID)
USE = re.compile(r"^\s*(?:pub )?(?:ghost )?use\s+([\w.·'-]+?)\.\{([^}]*)\}", re.M)
# what the library's own words are called now, as port.py turns them
LIBRARY = {"getD": "get_or", "_≡_": "◌≡◌"}


def snake(name):
    name = name.replace("-", "_").replace("′", "'")
    return re.sub(r"([a-z0-9])([A-Z])", r"\1_\2", name).lower()


def odd(name):
    return "-" in name and not name[0].isupper() or re.match(r"[a-z]\w*[A-Z]", name)


def files(root, ends, folders=("crates",)):
    for top in folders:
        for folder, inner, names in os.walk(os.path.join(root, top)):
            inner[:] = sorted(i for i in inner if i not in ("out", "target", ".git"))
            for name in sorted(names):
                if name.endswith(ends):
                    yield os.path.join(folder, name)


def read(path):
    with open(path, encoding="utf-8") as f:
        return f.read()


def bare(text):
    """The text without comments."""
    return "\n".join(re.sub(r"(^|\s)--(\s|$).*", "", line) for line in text.split("\n"))


def imports(text):
    for m in USE.finditer(text):
        for item in m[2].split(","):
            m2 = re.match(r"\s*(\S+)(?:\s+as\s+(\S+))?\s*$", item)
            if m2:
                yield m[1], m2[1], m2[2]


def bound(text):
    """The names that a file binds: definitions, fields, parameters, locals."""
    body = USE.sub("", text)
    forms = (
        r"^\s*(?:(?:pub|abbrev|unfoldable|opaque|instance|data|record)\s+)*(" + ID + r"(?:\s+" + ID + r")*)\s*:(?!:)",
        r"[({]\s*((?:" + ID + r"\s+)+):",
        r"\blet\s+([^=:]*?)\s*[:=]",
        r"λ\s+([^.]*?)\.",
        r"^\s*(" + ID + r"\s[^=:\n]*?)\s=(?=\s|$)",
    )
    for form in forms:
        for m in re.finditer(form, body, re.M):
            yield from WORD.findall(m[1])


def survey(root):
    """The repository's own names that are turned, each with what it becomes, and which files have a library's of the same name."""
    own_crates = set(os.listdir(os.path.join(root, "crates")))
    own, library, used, taken = set(), collections.defaultdict(set), collections.defaultdict(set), set()
    for path in files(root, ".antt"):
        text = bare(read(path))
        for module, name, alias in imports(text):
            m = re.match(r"Rattle\.(\w+)", module)
            local = "." not in module and module[0].isupper() and not module.startswith("Prim")
            if not (m and m[1] in own_crates or local):
                library[name].add(path)
            if alias:
                own.add(alias)
        own.update(bound(text))
        for word in WORD.findall(text):
            used[word].add(path)
    names = {n for n in own if odd(n)} - {n for n in library if len(library[n]) > 1 or n in LIBRARY}
    turned, into = {}, collections.defaultdict(list)
    for name in sorted(names):
        into[snake(name)].append(name)
    for word, olds in into.items():
        defined = word in used or any("-" not in o for o in olds)
        for old in olds:
            turned[old] = word + "_lem" if "-" in old and defined else word
    return turned, library


def words(text, turned):
    """Turns whole words. A word behind `tie.` or `goal.` is one that Rattle made."""
    def one(m):
        before = text[max(0, m.start() - 5):m.start()]
        if before.endswith(("tie.", "goal.")):
            return m[0]
        return turned.get(m[0], m[0])
    return WORD.sub(one, text)


def quoted(text, turned):
    return re.sub(r"`[^`\n]*`", lambda m: words(m[0], turned), text)


def by_line(text, mark, turned):
    """A source: code is turned whole, comments between back quotes."""
    out = []
    for line in text.split("\n"):
        m = re.search(r"(^|\s)" + re.escape(mark) + r"(\s|$)", line)
        cut = m.start() if m else len(line)
        out.append(words(line[:cut], turned) + quoted(line[cut:], turned))
    return "\n".join(out)


def rust(text, turned):
    """Rattle: as by_line, and what stands in strings stays."""
    parts = re.split(r'("(?:[^"\\\n]|\\.)*")', text)
    return "".join(p if i % 2 else by_line(p, "//", turned) for i, p in enumerate(parts))


def edit(text, turned):
    """A must-fail edit: its texts as port.py and this script leave the file that it names."""
    out, file = [], ""
    for line in text.split("\n"):
        if line.startswith("file: "):
            file = line[6:].strip()
        m = re.match(r"(old: |new: )(.*)", line)
        if m and file.endswith(".antt"):
            body = m[2].replace("′", "'")
            body = re.sub(r"(?<=[\w)]) \.(?=[a-z0-9])", ".", body)
            line = m[1] + words(words(body, LIBRARY), turned)
        elif m:
            line = m[1] + words(m[2], {k: v for k, v in turned.items() if "-" not in k})
        else:
            line = quoted(line, turned)
        out.append(line)
    return "\n".join(out)


def main():
    root = sys.argv[1] if len(sys.argv) > 1 else "."
    turned, library = survey(root)
    seen = collections.defaultdict(list)
    for old, new in turned.items():
        seen[new].append(old)
    for new, olds in sorted(seen.items()):
        if len(olds) > 1:
            print("together:", new, olds)
    # names that port.py turned already stand in edits and pages as they were
    before = dict(turned)
    for name in read(os.path.join(os.path.dirname(os.path.abspath(__file__)), "respelled.txt")).split():
        before.setdefault(name, snake(name))
    for path in files(root, (".antt", ".rt", ".edit", ".md"), ("crates", "tests/edits", "docs")):
        text = read(path)
        here = {k: v for k, v in turned.items() if path not in library.get(k, ())}
        if path.endswith(".antt"):
            new = by_line(text, "--", here)
        elif path.endswith(".rt"):
            new = rust(text, {k: v for k, v in here.items() if "-" not in k})
        elif path.endswith(".edit"):
            new = edit(text, before)
        else:
            new = quoted(text, before)
        if new != text:
            with open(path, "w", encoding="utf-8") as f:
                f.write(new)
    path = os.path.join(root, "README.md")
    text = quoted(read(path), before)
    with open(path, "w", encoding="utf-8") as f:
        f.write(text)
    print(len(turned), "names turned")


if __name__ == "__main__":
    main()
