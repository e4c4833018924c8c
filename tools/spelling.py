#!/usr/bin/env python3
"""Brings the names that this repository declares in specs/ and proofs/ to the kit's spelling.

usage: tools/spelling.py [FOLDER..]   at the top of the repository, after the kit's port.py: rewrites the .antt, .rt and .edit files of crates/, the spans in backticks
                                of README.md and docs/, and the same files below each FOLDER, by the names that this repository declares. A second run changes
                                nothing but what was declared since.

- A definition or lemma in camel case becomes snake case, wherever it stands as a word: upTo, setLimit-pos.
- A dash in a lemma's name becomes _, but for one that joins a fact or type to a name: counted-more is counted_more, and T-and-left is T-and_left.
- In specs/, clauses and edits the kit's older words become today's: eqb, ltb and leb are nat_eq, nat_lt and nat_le; get_or xs k 0 is slice_index xs k, and
  any other get_or is slice_index_or.
- contracts/specs/Contracts becomes Promises, since Rattle makes a module specs.contracts of its own.

Names of src/, of files and folders, of what a kit's library or Rattle itself declares, and strings stay. A file's `use` lines tell what is a library's there.
Where two names would fall together, TAKEN has another for one of them; a lemma gets `_lem`, as the kit has it, or stays, and a line says so. Nothing is proved here: rt check decides.
"""
import os
import re
import sys

TAKEN = {"sameBytes": "equal_bytes"}  # a name in camel case, and what it becomes where its plain form is taken
TELLS = os.path.join("docs", "PORT.md")  # the page that tells the names of before
LEMMAS = {"lies_within": "lies_within_lem"}  # a lemma that now has the plain name of an operator
OLD_WORDS = {"eqb": "nat_eq", "ltb": "nat_lt", "leb": "nat_le"}
NAME = r"[^\s(){}.;,@\"«»\[\]\\|`]+"
TOKEN = re.compile(NAME)
WORD = re.compile(r"[A-Za-z_]\w*")
CAMEL = re.compile(r"[a-z][a-z0-9_]*[a-z0-9][A-Z]")
DECLARED = re.compile(r"^(\s*)(?:(?:abbrev|unfoldable|pub|data|record|infix[lr]?|\d+)\s+)*(%s)\s*(?:[({].*)?:(?:\s|$)" % NAME)
USE = re.compile(r"^\s*(?:pub |ghost )*use\s+([^;{}\s]+?)(?:\.\{([^}]*)\})?(?:\s+as\s+(\S+?))?;?\s*$", re.M)


def files(root, ends):
    for folder, folders, names in os.walk(root):
        folders[:] = sorted(f for f in folders if f not in ("out", ".git", "target", "dist"))
        for name in sorted(names):
            if name.endswith(ends):
                yield os.path.join(folder, name)


def read(path):
    with open(path, encoding="utf-8") as f:
        return f.read()


def write(path, text):
    with open(path, "w", encoding="utf-8") as f:
        f.write(text)


def is_walk(path):
    return os.path.basename(path) in ("Proof.antt", "Answers.antt", "Invariants.antt")


def own_module(path):
    """Whether a module path names a file of this repository, and so not a library's nor one that Rattle makes."""
    parts = path.split(".")
    return len(parts) > 3 and parts[0] == "Rattle" and os.path.exists(os.path.join("crates", *parts[1:]) + ".antt")


def declared():
    """The names that are declared, those of them that are dashed, and the dashed fields of records."""
    names, dashed, fields = set(), set(), set()
    for path in files("crates", (".antt",)):
        for line in read(path).split("\n"):
            match = DECLARED.match(line)
            if not match or line.lstrip().startswith("--"):
                continue
            name, typed = match[2], line[match.end():].lstrip()
            names.add(name)
            if "-" not in name.strip("-"):
                continue
            if is_walk(path):
                # an answer's name is Rattle's
                if os.path.basename(path) == "Proof.antt" or match[1] or re.match(r"(goal|tie|lts)\.", typed) or re.match(r"(invariant|decreases)-", name):
                    continue
            dashed.add(name)
            if match[1] and "/specs/" in path:
                fields.add(name)
    return names, dashed, fields


def foreign(text):
    """The names that a file has from a library, or from a module that Rattle makes."""
    found = set()
    for match in USE.finditer(text):
        if match[2] is not None and not own_module(match[1]):
            for item in match[2].split(","):
                found.add(item.split(" as ")[-1].strip())
                found.add(item.split(" as ")[0].strip())
    return found


def undashed(name):
    parts = name.split("-")
    out = parts[0]
    for i, part in enumerate(parts[1:]):
        out += ("-" if i == 0 and parts[0][:1].isupper() else "_") + part
    return out


class Spelling:
    def __init__(self):
        names, dashed, self.fields = declared()
        self.names = names
        camel = set()
        for path in files("crates", (".antt",)):
            text = read(path)
            camel |= {w for w in WORD.findall(text) if CAMEL.match(w)} - {w for name in foreign(text) for w in WORD.findall(name)}
        self.camel = {n: TAKEN.get(n, re.sub(r"(?<=[a-z0-9])([A-Z])", lambda m: "_" + m[1].lower(), n)) for n in camel}
        for name, to in sorted(self.camel.items()):
            if to in names and name in names:
                print(f"look: {name} becomes {to}, which is declared already")
        used = {}
        for path in files("crates", (".antt",)):
            text = read(path)
            theirs = foreign(text)
            for name in dashed & set(TOKEN.findall(text)):
                used.setdefault(name, set()).update(theirs)
        after = {self.snake(n) for n in names}
        self.dashed = {n: to for n, to in LEMMAS.items() if to not in names}
        for name in sorted(dashed):
            to = undashed(self.snake(name))
            if to == name:
                continue
            if to in after or to in used.get(name, ()) or to in self.dashed.values():
                to += "_lem"
            if to in after or to in self.dashed.values():
                print(f"look: {name} stays, since {to} is declared already")
                continue
            self.dashed[name] = to

    def snake(self, text):
        return WORD.sub(lambda m: self.camel.get(m[0], m[0]), text)

    def undash(self, text, walk, theirs):
        # names that a file gives modules of this repository: what stands after one of them and a dot is a name of that module
        modules = {m[3] for m in USE.finditer(text) if m[3] and m[2] is None and own_module(m[1])}

        def one(m):
            name = m[0]
            if name in theirs or name not in self.dashed:
                return name
            before = re.search(r"(%s)\.$" % NAME, text[:m.start()][-80:])
            if walk and before and before[1] not in modules and name not in self.fields:
                return name
            return self.dashed[name]

        return TOKEN.sub(one, text)

    def told(self, name, names):
        """A name that a document tells: port.py has respelled some already, which are declared as they now are."""
        if name == "_liesWithin_":
            return "◌lies_within◌"
        to = self.snake(self.dashed.get(name, name))
        if to in names:
            return to
        plain = re.sub(r"(?<=[a-z0-9])([A-Z])", lambda m: "_" + m[1].lower(), to).replace("′", "'")
        return next((n for n in (plain, undashed(plain), plain.replace("-", "_")) if n in names), to)

    def aliases(self, text):
        """Names that a file gives modules, as `use .. as copy-kinds`."""
        for alias in set(re.findall(r"^\s*(?:pub |ghost )*use [^;{}\n]+ as (\S+?);?$", text, re.M)):
            to = alias.replace("-", "_")
            if to != alias and not re.search(r"(?<![^\s(){};,.\[\]|])%s(?![^\s(){};,.\[\]|])" % re.escape(to), text):
                text = re.sub(r"(?<![^\s(){};,\[\]|])%s(?![^\s(){};,.\[\]|]|\.\S*\.antt)" % re.escape(alias), to, text)
                text = re.sub(r"(?<![^\s(){};,\[\]|])%s(?=\.)" % re.escape(alias), to, text)
        return text


def atoms(text, at):
    """The next terms after a place on its line, each a word or in brackets, with their ends."""
    found = []
    while True:
        m = re.compile(r" (?=\S)").match(text, at)
        if not m or re.match(r"[)\]};,|=→×≡<≤+*/%^-]", text[m.end()]):
            return found
        i, depth = m.end(), 0
        while i < len(text) and (depth or not re.match(r"[\s)\]};,|]", text[i])):
            depth += (text[i] in "([{") - (text[i] in ")]}")
            i += 1
        found.append((text[m.end():i], i))
        at = i


def old_words(text):
    """eqb and the like, and get_or, in a file of specs/, of clauses or an edit."""
    for old, new in OLD_WORDS.items():
        text = re.sub(r"(?<![\w'-])%s(?![\w'-]|→)" % old, new, text)
    out, at = [], 0
    for m in re.finditer(r"(?<![\w'-])get_or(?![\w'-])", text):
        if m.start() < at:
            continue
        out.append(text[at:m.start()])
        at = m.end()
        after = atoms(text, at)
        if len(after) >= 3 and after[2][0] == "0":
            inner = old_words(text[at:after[1][1]])
            out.append("slice_index" + inner)
            at = after[2][1]
        else:
            out.append("slice_index_or")
    # (a get_or within the terms of another was turned with them)
    return "".join(out) + text[at:]


def imported(text):
    """The `use` lists name what the file now has."""
    def line(m):
        if m[2] is None:
            return m[0]
        items = [i.strip() for i in m[2].split(",")]
        if not ({"slice_index_or", "slice_index"} & set(items)):
            return m[0]
        body = text[:m.start()] + text[m.end():]
        has = {w for w in ("slice_index", "slice_index_or") if re.search(r"(?<![\w'-])%s(?![\w'-])" % w, USE.sub("", body))}
        kept = []
        for i in items:
            kept += sorted(has) if i in ("slice_index_or", "slice_index") else [i]
        return m[0].replace(m[2], ", ".join(dict.fromkeys(kept)))

    return USE.sub(line, text)


def turned_words(text, path):
    if path.endswith(".antt"):
        return imported(old_words(text))
    if path.endswith(".edit"):
        return "\n".join(l[:5] + old_words(l[5:]) if l.startswith(("old: ", "new: ")) else l for l in text.split("\n"))
    return imported(old_words(text))


def promises(text):
    return re.sub(r"contracts\.specs\.Contracts\b", "contracts.specs.Promises", text)


def main():
    spelling, changed = Spelling(), 0
    for root in ["crates", *sys.argv[1:]]:
        for path in files(root, (".antt", ".rt", ".edit")):
            was = now = read(path)
            theirs = foreign(was)
            proof = "/proofs/" in path
            if path.endswith(".antt"):
                now = promises(spelling.undash(now, is_walk(path), theirs))
                now = spelling.aliases(now)
            now = spelling.snake(now)
            if not proof:
                now = turned_words(now, path)
            if now != was:
                changed += 1
                write(path, now)
        old = os.path.join(root, "crates" if root != "crates" else "", "contracts", "specs", "Contracts.antt")
        if os.path.exists(old):
            os.rename(old, old.replace("Contracts.antt", "Promises.antt"))
            lib = os.path.join(os.path.dirname(old), "Lib.antt")
            write(lib, re.sub(r"mod Contracts\b", "mod Promises", read(lib)))
            changed += 2
    names = {spelling.snake(spelling.dashed.get(n, n)) for n in spelling.names}
    for path in ["README.md", *(path for path in files("docs", (".md",)) if path != TELLS)]:
        was = read(path)
        now = re.sub(r"`[^`\n]+`", lambda m: TOKEN.sub(lambda t: spelling.told(t[0], names), m[0]), was)
        now = re.sub(r"`contracts/specs/Contracts(`|\.antt`)", r"`contracts/specs/Promises\1", now)
        if now != was:
            changed += 1
            write(path, now)
    print(f"{len(spelling.camel)} names in camel case, {len(spelling.dashed)} with a dash, {changed} files")


main()
