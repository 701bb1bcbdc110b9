#!/usr/bin/env python3
"""Brings the repository's own names to the spelling of today's Rattle: words in snake case, a dash only where it joins two names.

usage: python3 tools/respell.py            at the top of the repository, once, right after port.py
       python3 tools/respell.py --list     only prints the names: old, new, and where two would fall together

It goes by the names that specs/ and proofs/ declare (the folders of single functions aside), and writes them wherever they stand: in
specs/, proofs/, clauses, edits, and between backquotes in comments and documents. Names of the library, of functions of src/ and of
what Rattle generates keep their spelling.
"""
import collections
import os
import re
import sys

NAME = r"[^\W\d][\w']*(?:-[\w'*]+)*"
TOKEN = re.compile(NAME)
DECLARED = re.compile(rf"^\s*(?:(?:unfoldable|abbrev|pub|pattern|axiom|instance)\s+)*(?:record\s+|data\s+)?({NAME})(?:\s*\{{[^}}]*\}})?\s*:", re.M)
BOUND = re.compile(rf"[({{]((?:{NAME}\s+)*{NAME})\s*:")
LET = re.compile(rf"\blet\s+({NAME})\b")
LAMBDA = re.compile(rf"λ\s+((?:{NAME}\s+)*{NAME})\s*\.")
IMPORT = re.compile(r"^use\s+([^\s{]+)(?:\.\{([^}]*)\})?(?:\s+as\s+\S+)?\s*$", re.M)
PLAIN = re.compile(r"[a-z_\d']+")

# Names that are not turned by the rule.
BY_HAND = {"getD-up": "get_or-up", "many-routes": "many_routes", "manyRoutes": "many_routes_model", "no-rule": "no_rule_held"}

# Names that would fall together with a definition's in snake case: a statement takes `_lem` then. These have no dash any more, so they are
# turned only where they are no function's name: not in the folders of single functions, not in a path and not behind `contracts.`.
STATEMENTS = {"goes_on": "continues"} | {
    name: name + "_lem" for name in ("run_fits", "run_length", "ranges_in", "longest_run", "one_by_one", "rule_fits", "in_order", "stopped_by", "end_line", "record_of")
}


def antt_files(root):
    for folder, dirs, files in os.walk(os.path.join(root, "crates")):
        dirs[:] = sorted(d for d in dirs if d != "out")
        for name in sorted(files):
            if name.endswith(".antt"):
                yield os.path.join(folder, name)


def of_function(path, root):
    """Whether a file is part of the proof of one function."""
    parts = os.path.relpath(path, root).split(os.sep)
    return parts[2] == "proofs" and len(parts) > 4


def text_of(path):
    with open(path, encoding="utf-8") as it:
        return it.read()


def without_comments(text):
    return re.sub(r"--[^\n]*", "", text)


def snake(word):
    """`maxComponents` as `max_components`; a capital at the head stays."""
    word = word.replace("′", "'")
    if word[:1].isupper():
        return word
    return re.sub(r"(?<=[a-z\d'])([A-Z])", lambda m: "_" + m.group(1).lower(), word)


def is_type(word):
    return word[:1].isupper()


def library_names(files):
    """Names that files import from outside the repository's own crates, with how often."""
    names = set()
    for path in files:
        for match in IMPORT.finditer(without_comments(text_of(path))):
            if match.group(1).startswith("Rattle.") and not match.group(1).startswith(("Rattle.std", "Rattle.core")):
                continue
            for item in (match.group(2) or "").split(","):
                item = item.strip().split(" as ")[0].strip()
                if item:
                    names.add(item)
    return names


def declared(root):
    lemmas, words, locals_ = set(), set(), set()
    for path in antt_files(root):
        if of_function(path, root):
            continue
        text = without_comments(text_of(path))
        spec = os.sep + "specs" + os.sep in path
        for name in DECLARED.findall(text):
            (words if spec else lemmas).add(name)
        # a field or a constructor is a word wherever it stands
        for block in re.finditer(r"^(\s*)(?:(?:pub|abbrev)\s+)*(?:record|data)\s[^\n]*\n((?:\1\s+[^\n]*\n|\s*\n)*)", text, re.M):
            for name in DECLARED.findall(block.group(2)):
                words.add(name)
        for group in BOUND.findall(text) + LAMBDA.findall(text):
            locals_.update(TOKEN.findall(group))
        locals_.update(LET.findall(text))
    return lemmas, words, locals_


def new_names(root):
    files = [p for p in antt_files(root)]
    lemmas, words, locals_ = declared(root)
    library = library_names(files)
    plain = {snake(w) for w in words | lemmas if "-" not in w}
    new = {}
    for name in sorted(lemmas | words | locals_):
        if name in library and name not in words and name not in lemmas:
            continue
        if not re.search(r"[a-z\d'][A-Z]|-|′", name):
            continue
        parts = [snake(p) for p in name.split("-")]
        if name in BY_HAND:
            made = BY_HAND[name]
        elif len(parts) == 1:
            made = parts[0]
        elif is_type(parts[0]) and len(parts) == 2 and not is_type(parts[1]):
            made = "-".join(parts)
        elif name in words or name not in lemmas:
            made = "".join(p for p in parts) if is_type(parts[0]) else "_".join(p.lower() for p in parts)
            if made in plain or made in library:
                made += "_lem"
        else:
            made = "-".join(parts)
        if made != name:
            new[name] = made
    return new, lemmas | words | locals_, library


def clashes(new, names, library):
    """Names that fall together with another."""
    back = collections.defaultdict(set)
    for old, made in new.items():
        back[made].add(old)
    for made, olds in sorted(back.items()):
        others = set(olds)
        if made in names and made not in new:
            others.add(made)
        if made in library:
            others.add("(library) " + made)
        if len(others) > 1:
            yield made, sorted(others)


def imported_from_library(text):
    found = set()
    for match in IMPORT.finditer(text):
        if match.group(1).startswith("Rattle.") and not match.group(1).startswith(("Rattle.std", "Rattle.core")):
            continue
        for item in (match.group(2) or "").split(","):
            found.update(x.strip() for x in item.split(" as ") if x.strip())
    return found


def turned_statements(text):
    """The names of STATEMENTS, where no path leads to them."""
    return re.sub(
        r"(\b(?:contracts|proofs|declared)\.)?(?<![\w'-])(\w+)(?![\w'-])",
        lambda m: m.group(0) if m.group(1) else STATEMENTS.get(m.group(2), m.group(2)),
        text,
    )


def turned(text, new, keep=frozenset()):
    return TOKEN.sub(lambda m: m.group(0) if m.group(0) in keep else new.get(m.group(0), m.group(0)), text)


def turned_lines(text, new, keep, comment):
    """All of a line before its comment, and what stands between backquotes behind; lower camel case there wherever it stands."""
    camel = {k: v for k, v in new.items() if "-" not in k}
    out = []
    for line in text.split("\n"):
        at = line.find(comment)
        if at < 0:
            out.append(turned(line, new, keep))
            continue
        code, rest = line[:at], line[at:]
        rest = re.sub(r"`[^`]*`", lambda m: turned(m.group(0), new), rest)
        out.append(turned(code, new, keep) + turned(rest, camel))
    return "\n".join(out)


def turned_source(text, new):
    """A .rt file: lower camel case stands in no name of the code; names with a dash are turned in imports and clauses alone."""
    camel = {k: v for k, v in new.items() if "-" not in k}
    out = []
    for line in text.split("\n"):
        code, slash, rest = line.partition("//")
        rest = re.sub(r"`[^`]*`", lambda m: turned(m.group(0), new), rest)
        code = turned(code, new if re.match(r"\s*(ghost|requires|ensures)\b", code) else camel)
        out.append(code + slash + turned(rest, camel))
    return "\n".join(out)


def turned_page(text, new):
    camel = {k: v for k, v in new.items() if "-" not in k}
    return turned(re.sub(r"`[^`\n]*`", lambda m: turned(m.group(0), new), text), camel)


def write(path, text):
    if text != text_of(path):
        with open(path, "w", encoding="utf-8") as it:
            it.write(text)


def main():
    root = "."
    new, names, library = new_names(root)
    if "--list" in sys.argv:
        for old, made in sorted(new.items()):
            print(f"{old}\t{made}")
        for made, olds in clashes(new, names, library):
            print(f"clash: {made}: {', '.join(olds)}")
        return
    for path in list(antt_files(root)):
        text = text_of(path).replace("′", "'")
        if not of_function(path, root):
            text = "\n".join(turned_statements(line.partition("--")[0]) + "".join(line.partition("--")[1:]) for line in text.split("\n"))
        write(path, turned_lines(text, new, imported_from_library(text), "--"))
    for folder, dirs, files in os.walk("."):
        dirs[:] = [d for d in dirs if d not in ("out", ".git", "target")]
        for name in files:
            path = os.path.join(folder, name)
            if name.endswith(".rt"):
                write(path, turned_source(text_of(path), new))
            elif name.endswith(".edit"):
                write(path, "\n".join(turned(line, new if re.match(r"(old|new|law): ", line) else {}) for line in text_of(path).split("\n")))
            elif name.endswith(".md"):
                write(path, turned_page(text_of(path), new))


if __name__ == "__main__":
    main()
