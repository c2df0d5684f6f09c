#!/usr/bin/env python3
"""Brings the repository's own names of definitions and lemmas to snake case: numberOf and paste-front become number_of and paste_front.

usage: respell.py [--check]      at the top of the repository, after port.py

Types and modules keep their capitals, functions of src/ and names of the kit's libraries their spelling. It rewrites the .antt and .rt files below
crates/ and the texts of must-fail edits in place; --check only says which new names would fall together with a name that is there already.
"""

import collections
import os
import re
import sys

# Lemmas whose words are those of the definition that they speak of, or of another name beside them.
TWINS = set(
    """figure-in startup-ends joining-ends entry_in next-in alone-in header-heard written-told octet-of heard-told asked-told in-range code-number
free-places fixed-octets other-octets with-ours due_in passed-by taken-by mail-at kept-outgoing is-token heard-as is-letter is-owed after-all
is-unconfirmed is_open slot-ticked is-listed body-verdict header-verdict line-done views-of up-to number-in first_above gap-shown after-taking
next-station octets-by octet-at later-by ticked-by request-sent received-told slot_counted""".split()
)
OWN = set(d for d in os.listdir("crates"))
PART = re.compile(r"[^\s(){}\[\],;.]+")
KEBAB = re.compile(r"^[a-zκλ][\w'′]*(?:-[\w'′]+)+$")
CAMEL = re.compile(r"^[a-z][\w'′-]*[a-z0-9][A-Z][\w'′-]*$")
FIELDS = re.compile(r"^[A-Z]{1,3}-[A-Z0-9]+$")
USE = re.compile(r"^(\s*(?:pub )?use |\s*ghost use )(\S+?)(?:\.\{([^}]*)\}(.*)| as (\S+)|;?)$")
HEAD = re.compile(r"^\s*(?:abbrev |pub |opaque |unfoldable )*([^\s:(){}]+) :(?:\s|$)")


def files(*ends):
    for root, dirs, names in os.walk("crates"):
        dirs[:] = sorted(d for d in dirs if d != "out")
        for n in sorted(names):
            if n.endswith(ends):
                yield os.path.join(root, n)


def read(path):
    with open(path, encoding="utf-8") as f:
        return f.read()


def is_ours(path):
    words = path.split(".")
    return words[0] == "Rattle" and len(words) > 1 and words[1] in OWN


def imported(line):
    """The module and the names that a use line brings, or None."""
    m = USE.match(line)
    if not m:
        return None
    names = []
    if m.group(3) is not None:
        for it in m.group(3).split(","):
            names += [w for w in re.split(r"\s+as\s+", it.strip()) if w]
    return m.group(2), names


def of_the_kit():
    """The names that a use line brings from a library of the kit, and those that our own modules hand on."""
    kit, declared = set(), set()
    for p in files(".antt", ".rt"):
        for line in read(p).split("\n"):
            it = imported(line)
            if it and not is_ours(it[0]):
                kit.update(it[1])
            if p.endswith(".antt"):
                m = HEAD.match(line)
                if m and not line.lstrip().startswith("--"):
                    declared.add(m.group(1))
    return kit, declared


def respelled(word):
    if word == "Counts-on":
        return "CountsOn"
    if KEBAB.match(word) or FIELDS.match(word):
        word = word.replace("-", "_")
    if CAMEL.match(word):
        word = re.sub(r"(?<=[a-z0-9])([A-Z]+)(?=[^A-Za-z]|$)|(?<=[a-z0-9])([A-Z])(?![A-Z0-9]*$)|(?<=[a-z0-9])([A-Z])", lambda m: "_" + m.group(0).lower(), word)
    return word


def keeps(text, own_lines):
    """The names that this text takes from the kit."""
    kept, ours = set(), set()
    for line in text.split("\n"):
        it = imported(line)
        if it:
            (ours if is_ours(it[0]) else kept).update(it[1])
    return kept, ours


class Names:
    def __init__(self):
        self.kit, self.declared = of_the_kit()
        self.met = collections.defaultdict(set)
        self.after = {respelled(w) for w in self.declared}

    def is_name(self, word):
        return word in self.declared or respelled(word) in self.after

    def turn(self, word, kept, ours, field=False):
        new = respelled(word)
        if word in TWINS and not field:
            return word + "_lem" if new == word else new + "_lem"
        if new == word or word in kept:
            return word
        if word in self.kit and word not in self.declared:
            return word
        self.met[new].add(word)
        return new

    def code(self, text, kept, ours, field=False):
        return PART.sub(lambda m: self.turn(m.group(0), kept, ours, field or text[: m.start()].endswith(".")), text)

    def comment(self, text):
        """In a comment only a name that is declared, and has a capital or stands in backquotes, is a name."""

        def one(m):
            w = m.group(0)
            return respelled(w) if CAMEL.match(w) and self.is_name(w) else w

        text = re.sub(r"(?<=`)[^`\s]+(?=`)", lambda m: self.turn(m.group(0), (), ()) if self.is_name(m.group(0)) else m.group(0), text)
        return re.sub(r"[A-Za-z][\w'-]*", one, text)

    def page(self, text):
        """A piece of a page that stands in backquotes."""
        return PART.sub(lambda m: self.turn(m.group(0), (), (), "_" in m.group(0)) if self.is_name(m.group(0)) else m.group(0), text)

    def antt_line(self, line, kept, ours):
        it = USE.match(line)
        if it:
            path = it.group(2)
            if it.group(5):
                return line[: it.start(5)] + respelled(it.group(5))
            if not is_ours(path) or it.group(3) is None:
                return line
            head = line[: line.index("{") + 1]
            return head + self.code(it.group(3), kept, ours) + "}" + it.group(4)
        m = re.search(r"(?:^|(?<=\s))--(?=\s|$)", line)
        if m:
            return self.code(line[: m.start()], kept, ours) + self.comment(line[m.start() :])
        return self.code(line, kept, ours)

    def antt(self, text):
        kept, ours = keeps(text, None)
        return "\n".join(self.antt_line(l, kept, ours) for l in text.split("\n"))

    def rt_line(self, line, kept, ours):
        it = USE.match(line.rstrip(";"))
        if it and it.group(1).strip() == "ghost use":
            if not is_ours(it.group(2)) or "{" not in line:
                return line
            a, b = line.index("{") + 1, line.rindex("}")
            return line[:a] + self.code(line[a:b], kept, ours) + line[b:]
        out, at = [], 0
        for m in re.finditer(r'//[^\n]*|b?"(?:\\.|[^"\\])*"', line):
            out.append(self.code(line[at : m.start()], kept, ours, True))
            out.append(self.comment(m.group(0)) if m.group(0).startswith("//") else m.group(0))
            at = m.end()
        out.append(self.code(line[at:], kept, ours, True))
        return "".join(out)

    def rt(self, text):
        kept, ours = keeps(text, None)
        return "\n".join(self.rt_line(l, kept, ours) for l in text.split("\n"))

    def edit(self, path, text):
        out, now = [], ""
        base = os.path.dirname(os.path.dirname(path))
        for line in text.split("\n"):
            if line.startswith("file: "):
                now = line[6:].strip()
            elif line.startswith(("old: ", "new: ")):
                full = os.path.join(base, now)
                whole = read(full) if os.path.exists(full) else ""
                kept, ours = keeps(whole, None)
                turn = self.antt_line if now.endswith(".antt") else self.rt_line
                line = line[:5] + turn(line[5:], kept, ours)
            out.append(line)
        return "\n".join(out)


def pages():
    """The pages that name definitions: the notes of what a change once moved stay as they are."""
    for root, dirs, names in os.walk("."):
        dirs[:] = sorted(d for d in dirs if d not in ("crates", "target", ".git", "changes"))
        for n in sorted(names):
            if n.endswith(".md") and n not in ("README.md", "PORT.md"):
                yield os.path.join(root, n)


def main(argv):
    check = argv == ["--check"]
    if argv and not check:
        print(__doc__)
        return 2
    names = Names()
    edits = {p: names.edit(p, read(p)) for p in files(".edit")}
    new = {p: names.antt(read(p)) for p in files(".antt")} | {p: names.rt(read(p)) for p in files(".rt")}
    for to, words in sorted(names.met.items()):
        if len(words) > 1:
            print(f"look: {' and '.join(sorted(words))} are both {to} now")
    for p, text in new.items():
        if p.endswith(".antt"):
            old = set(PART.findall(re.sub(r"(?m)(?:^|(?<=\s))--(?=\s|$).*", "", read(p))))
            for w in sorted(old):
                n = respelled(w)
                if n != w and n in old and w in names.declared:
                    print(f"look: {p}: {w} falls on {n}")
    marked = {p: re.sub(r"(?<=`)[^`\n]+(?=`)", lambda m: names.page(m.group(0)), read(p)) for p in pages()}
    for p, text in (new | edits | marked).items():
        if text != read(p) and not check:
            with open(p, "w", encoding="utf-8") as f:
                f.write(text)
    return 0


if __name__ == "__main__":
    raise SystemExit(main(sys.argv[1:]))
