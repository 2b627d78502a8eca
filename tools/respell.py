#!/usr/bin/env python3
"""Brings this repository's own names to the spelling of today's Rattle: definitions, lemmas, fields and constructors in
snake case, facts (names that begin with a capital) in camel case, ' for ′. Run once at the root, after the kit's port.py.

usage: respell.py [--check] [ROOT]      --check: only says what it would turn

A name of ours is one that specs/ or proofs/ declares, or that a file gives to an import (`refusal as refusal-of`). It is
turned
  * in every .antt file, outside quoted text, and in comments between backquotes; not where a file imports the word from
    a library, not in a library's own path, and not behind a lower-case path (`goal.f-requires`, `c.if-x-b`) unless it is a
    field of ours;
  * in .rt files in the imports, clauses and ghost items, and in comments between backquotes;
  * in must-fail/*.edit as in the file that the edit is about.
Code, names of C, quoted text, inputs and outputs are never touched. Where two names would fall together in a file, it says
so and writes nothing.
"""
import os
import re
import sys

from own_names import declared, logic_files

TOKEN = re.compile(r"--[^\n]*|\"(?:[^\"\\\n]|\\.)*\"|«[^»]*»|[^\s(){}.;,@\"«»\[\]\\]+|.|\n")
WORD = re.compile(r"[^\s(){}.;,@\"«»\[\]\\]")
USE = r"^\s*(?:pub )?(?:ghost )?use "
IMPORT = re.compile(USE + r"([\w.+'·-]+?)\.\{([^}]*)\}", re.M)
GOAL = re.compile(r"^\s*(?:(?:abbrev|pub)\s+)*([^\s:]+)\s*:\s*(?:tie|goal)\.", re.M)
CLAUSE = re.compile(r"\b(?:requires|ensures)\*?(?: \w+)? \{|\bghost [\w ]+(?:: )?\{")
GHOST_USE = re.compile(r"(?ms)^\s*(?:pub )?ghost use [^;]*;")
MADE = ("c", "goal", "tie", "l", "g", "w")      # what the check makes: names behind these are its own


def today(name):
    name = name.replace("′", "'")
    if "-" not in name or name.startswith("-") or name.endswith("-"):
        return name
    parts = name.split("-")
    if name[0].isupper():
        return "".join(part[:1].upper() + part[1:] for part in parts)
    return "_".join(parts)


def text_of(path):
    with open(path) as file:
        return file.read()


def closing(text, opened):
    """The place after the brace that closes the one at `opened`."""
    depth = 0
    for at in range(opened, len(text)):
        depth += {"{": 1, "}": -1}.get(text[at], 0)
        if depth == 0:
            return at + 1
    return len(text)


class Names:
    """The names of a repository, old and new."""
    def __init__(self, root):
        self.crates = set(os.listdir(os.path.join(root, "crates")))
        self.turned, self.fields, self.of_file, self.count = {}, set(), {}, {}
        for path, own in logic_files(root):
            goals = set() if own else set(GOAL.findall(text_of(path)))
            for name, kind in declared(path):
                if name in goals:
                    continue
                self.of_file.setdefault(path, set()).add(name)
                if kind == "field":
                    self.fields.add(name)
                self.learn(name)
        for path in sources(root, ".rt", ".antt"):
            for line in re.findall(USE + r"[^\n]*", text_of(path), re.M):
                for name in re.findall(r" as ([^\s,};]+)", line):
                    self.learn(name)

    def learn(self, name):
        if today(name) != name:
            self.turned[name] = today(name)

    def ours(self, path):
        parts = path.split(".")
        return parts[0] == "Rattle" and len(parts) > 1 and parts[1] in self.crates

    def from_libraries(self, path):
        """What a file imports from a library by name: there the word is the library's."""
        taken = set()
        for module, names in IMPORT.findall(text_of(path)):
            if not self.ours(module):
                taken |= {name.strip() for name in names.split(",") if " as " not in name}
        return taken - self.of_file.get(path, set())

    def falling_together(self):
        for path, names in sorted(self.of_file.items()):
            imported = {name.split(" as ")[-1].strip() for _, names in IMPORT.findall(text_of(path)) for name in names.split(",")}
            seen = {}
            for name in sorted(names | imported - {""}):
                other = seen.setdefault(self.turned.get(name, name), name)
                if other != name:
                    yield path, other, name

    def word(self, word):
        if word in self.turned:
            self.count[word] = self.count.get(word, 0) + 1
            return self.turned[word]
        return word.replace("′", "'")

    def logic(self, text, kept, comments=True):
        """Turns antt: a file of it, or what stands in the braces of a clause."""
        out, line, path = [], "", ""
        for token in TOKEN.findall(text):
            new = token
            if token == "\n" or token.startswith("--") or token[0] in "\"«":
                path = ""
                if token.startswith("--") and comments:
                    new = self.comment(token)
            elif token == ".":
                path += "."
            elif not WORD.match(token):
                path = ""
            else:
                use = re.match(USE + r"([\w.+'·-]+)", line)
                behind = path.endswith(".") and path[0].islower() and path.split(".")[0] in MADE
                own_field = token in self.fields and path.split(".")[0] not in ("goal", "tie")
                if not (use and not self.ours(use[1])) and not (behind and not own_field) and token not in kept:
                    new = self.word(token)
                path += token
            out.append(new)
            line = "" if token == "\n" else line + new
        return "".join(out)

    def comment(self, text):
        return re.sub(r"`([^`]+)`", lambda m: "`" + self.logic(m[1], (), False) + "`", text)

    def code(self, text, kept):
        """Turns a .rt file: its imports of logic, clauses and ghost items, and the comments of the rest."""
        spans = [m.span() for m in GHOST_USE.finditer(text)]
        spans += [(m.start(), closing(text, m.end() - 1)) for m in CLAUSE.finditer(text)]
        comments = lambda rest: re.sub(r"(?m)//[^\n]*", lambda m: self.comment(m[0]), rest)
        out, last = [], 0
        for start, end in sorted(spans):
            if start >= last:
                out += [comments(text[last:start]), self.logic(text[start:end], kept)]
                last = end
        return "".join(out) + comments(text[last:])

    def edit(self, text, crate):
        """Turns the old and the new text of a must-fail edit, as the file that it is about."""
        about = re.search(r"(?m)^file: (\S+)", text)[1]
        kept = self.from_libraries(os.path.join(crate, about))
        turn = self.logic if about.endswith(".antt") else self.code
        return re.sub(r"(?m)^((?:old|new): )(.*)$", lambda m: m[1] + turn(m[2], kept), text)

    def file(self, path, text):
        if path.endswith(".edit"):
            return self.edit(text, os.path.dirname(os.path.dirname(path)))
        kept = self.from_libraries(path)
        if path.endswith(".rt"):
            return self.code(text, kept)
        of_function = "/proofs/" in path and os.path.basename(os.path.dirname(path)) != "proofs"
        return self.logic(text, kept | set(GOAL.findall(text)) if of_function else kept)


def sources(root, *endings):
    for folder, folders, names in os.walk(os.path.join(root, "crates")):
        folders[:] = sorted(name for name in folders if name not in ("out", "data"))
        for name in sorted(names):
            if name.endswith(endings):
                yield os.path.join(folder, name)


def main(words):
    check = "--check" in words
    root = ([word for word in words if word != "--check"] or ["."])[0]
    names = Names(root)
    together = list(names.falling_together())
    for path, one, other in together:
        print(f"falls together in {path}: {one} and {other}")
    if together:
        return 1
    changed = {}
    for path in sources(root, ".rt", ".antt", ".edit"):
        text = text_of(path)
        if (new := names.file(path, text)) != text:
            changed[path] = new
    for path, new in {} if check else changed.items():
        with open(path, "w") as file:
            file.write(new)
    for name in sorted(names.count):
        print(name, names.turned[name], names.count[name], sep="\t")
    print(f"respell: {len(names.count)} names, {sum(names.count.values())} places, {len(changed)} files")
    return 0


if __name__ == "__main__":
    sys.exit(main(sys.argv[1:]))
