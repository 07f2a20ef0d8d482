#!/usr/bin/env python3
"""Shows the definitions in which contracts are stated.

    docs/definitions.py NAME ..                 shows each definition of this name, and who cites it
    docs/definitions.py --cites NAME ..         shows also what it cites
    docs/definitions.py --list [--crate CRATE]  lists the public definitions, each with the first sentence of its comment

A definition is in a file of a crate's specs/, below a comment that states its meaning. Functions cite it in the clauses of their
contracts; the names of these clauses follow the function in brackets. Types cite it in their ghost items, such as `ghost view`. If no
definition has the name, those whose names contain it are listed, in lower or upper case. The exit status is 1 if nothing is found.
"""
import argparse
import pathlib
import re
import signal
import sys
import textwrap
from typing import NamedTuple

TOP = pathlib.Path(__file__).resolve().parent.parent
# The first line of a definition, and lines that look like one.
HEADER = re.compile(r"(?:abbrev |unfoldable )*(?P<public>pub )?(?:record |data )?(?P<name>[^\s:(){}=]+)(?=\s|:|$)")
NO_HEADER = re.compile(r"(?:pub )?(?:use|mod) [^:]")
IMPORT = re.compile(r"^ *(?:pub )?(?:ghost )?use Rattle\.(\w+)\.specs\.([\w.]+?)(?:\.\{([^}]*)\}| as (\w+));?$", re.MULTILINE)
# Names, with their fields, such as x.home; what binds names; and parts of a text that cite nothing: comments, the declared names of
# fields, and the names of fields that are set.
WORD = re.compile(r"[^\s(){}\[\];,:]+")
BINDERS = re.compile(r"\(([^():]+) : |\{([^(){}:=]+) : |λ ([^.]+)\.")
NO_NAMES = re.compile(r"--.*|^ +(?:pub )?\w+ : |(?<=[{;])\s*\w+ = ", re.MULTILINE)
ITEM = re.compile(r"(?:pub(?:\([^)]*\))? )?(?:(?:const|unsafe|default) )*(fn|impl|trait|struct|mod)\b(.*)")
CLAUSE = re.compile(r"(?:requires|ensures)\b *(\w*)")
GHOST = re.compile(r"(?:pub(?:\([^)]*\))? )?ghost (?!use\b)(\w+)")


class Definition(NamedTuple):
    """A definition: its crate, its file within specs/, its line, its name, whether it is public, the modules around it, its comment,
    and its text with the comment."""

    crate: str
    file: str
    line: int
    name: str
    is_public: bool
    modules: tuple
    comment: str
    text: str

    @property
    def key(self):
        return self.crate, self.file, self.name

    @property
    def path(self):
        return f"crates/{self.crate}/specs/{self.file}.antt"

    def __str__(self):
        return f"{self.path}:{self.line}"


def crates():
    """Returns the names of the crates in crates.txt."""
    lines = (TOP / "crates.txt").read_text(encoding="utf-8").splitlines()
    return [line.split(":")[0].split()[0] for line in lines if line.strip() and not line.startswith("#")]


def indent_of(line):
    return len(line) - len(line.lstrip())


def definitions_of(crate, file, text):
    """Yields the definitions of a file of specs/. A definition ends at a blank line or at the first line of the next one."""
    modules, comment, block, begun, heading = [], [], [], None, None

    def ended():
        if begun is not None:
            (at, header), words = begun, [line.strip().lstrip("-").strip() for line in comment]
            body = textwrap.dedent("\n".join(comment + block))
            yield Definition(crate, file, at, header["name"], bool(header["public"]), tuple(it for _, it in modules), " ".join(words), body)

    for at, line in enumerate([*text.splitlines(), ""], 1):
        words, indent = line.strip(), indent_of(line)
        if not words or words.startswith("-- ----"):
            yield from ended()
            comment, block, begun = [], [], None
            continue
        if begun is None:
            modules = [it for it in modules if it[0] < indent]
        if heading is not None:
            heading += " " + words
        elif begun is None and words.startswith("module "):
            heading = words
        if heading is not None:
            if words.endswith("where"):
                modules, heading = [*modules, (indent, heading)], None
            comment = []
        elif begun is None and words.startswith("--"):
            comment.append(line)
        elif begun is None and NO_HEADER.match(words):
            comment = []
        else:
            header = HEADER.match(words)
            if begun is not None and not (header and header["public"] and indent == indent_of(block[0])):
                block.append(line)
                continue
            if begun is not None:
                # The comment above this definition was added to the one before.
                over = []
                while block[-1].strip().startswith("--"):
                    over.insert(0, block.pop())
                yield from ended()
                comment = over
            block, begun = [line], (at, header)


def all_definitions(names):
    """Returns the definitions of these crates, ordered by crate and file."""
    found = []
    for crate in names:
        folder = TOP / f"crates/{crate}/specs"
        for path in sorted(folder.rglob("*.antt")):
            found += definitions_of(crate, str(path.relative_to(folder).with_suffix("")), path.read_text(encoding="utf-8"))
    return found


class Scope:
    """The names that a file imports, or has itself: of definitions, and of modules of definitions."""

    def __init__(self, known, text, own=()):
        self.names, self.modules = {it.name: it.key for it in own}, {}
        for crate, path, names, module in IMPORT.findall(text):
            *above, last = path.split(".")
            file, within = path.replace(".", "/"), None
            if (crate, file) not in known:
                # An import of constructors has the name of their data type as its last part.
                file, within = "/".join(above), last
            of = known.get((crate, file), {})
            if module:
                self.modules[module] = {} if within else of
                if within in of:
                    self.names[module] = of[within]
            for name in filter(None, map(str.strip, names.split(","))):
                name, _, other = name.partition(" as ")
                key = of.get(within or name)
                if key:
                    self.names[other or name] = key

    def cited_by(self, definition):
        """Returns what a definition cites other than itself. Names on the left of its equations are bound, except constructors."""
        lefts = re.findall(rf"^{re.escape(definition.name)} (.*?)(?<!\S)=(?!\S)", definition.text, re.MULTILINE)
        return self.cited(definition.text, re.findall(r"\b[a-z_][\w']*", " ".join(lefts))) - {definition.key}

    def cited(self, text, bound=()):
        """Returns what this text cites. Names that are bound in it cite nothing."""
        bound = {*bound, *" ".join("".join(it) for it in BINDERS.findall(text)).split()}
        found = set()
        for word in WORD.findall(NO_NAMES.sub("", text)):
            first, *rest = word.split(".")
            if first in self.modules and rest and rest[0] in self.modules[first]:
                found.add(self.modules[first][rest[0]])
            elif first in self.names and first not in bound:
                found.add(self.names[first])
        return found


def known_names(definitions):
    """Returns for each file of specs/ the definitions that others can import from it, by name: its own, and those that it re-exports."""
    known = {}
    for it in definitions:
        known.setdefault((it.crate, it.file), {})[it.name] = it.key
    for (crate, file), names in known.items():
        text = (TOP / f"crates/{crate}/specs/{file}.antt").read_text(encoding="utf-8")
        handed_on = "\n".join(line for line in text.splitlines() if line.startswith("pub use"))
        names.update(Scope(known, handed_on).names)
    return known


def type_of(kind, words):
    """Returns the name of the type of an impl, or that of a struct, a trait or a module."""
    words = words.partition("{")[0].partition(" where ")[0]
    while "<" in words:
        plain = re.sub(r"<[^<>]*>", "", words.replace("->", ""))
        if plain == words:
            break
        words = plain
    words = words.split(" for ")[-1] if kind == "impl" else words.partition(":")[0]
    return words.strip().lstrip("&").split("::")[-1]


def contracts_of(text):
    """Yields the clauses and ghost items in a file of src/: the function or the type, the name of the clause, the parameters, and the
    clause's text. The file must be laid out by `rt fmt`, which indents a block by four more columns."""
    lines, around, at = text.splitlines(), [], 0
    while at < len(lines):
        line, indent = lines[at], indent_of(lines[at])
        words, at = line.strip(), at + 1
        if not words or words.startswith("//"):
            continue
        around = [it for it in around if it[0] < indent]
        if indent > (around[-1][0] + 4 if around else 0):
            continue
        item, ghost = ITEM.match(words), GHOST.match(words)
        name = "::".join(it for _, _, it in around)
        if ghost and around:
            clause, last = [line], "," if around[-1][1] == "struct" else ";"
            while not clause[-1].rstrip().endswith(last) and at < len(lines) and indent_of(lines[at]) >= indent:
                clause.append(lines[at])
                at += 1
            yield name, f"ghost {ghost[1]}", "", "\n".join(clause).partition(ghost[0])[2]
        elif item and item[1] != "fn":
            head = item[2]
            while not head.rstrip().endswith(("{", ";", "}")) and at < len(lines):
                head += " " + lines[at].strip()
                at += 1
            if head.rstrip().endswith("{"):
                around.append((indent, item[1], type_of(item[1], head)))
        elif item:
            head, clauses = [line], []
            while at < len(lines):
                words = lines[at].strip()
                clause = CLAUSE.match(words)
                if not clauses and not clause and head[-1].rstrip().endswith(("{", ";", "}")):
                    break
                if clauses and indent_of(lines[at]) <= indent or words == "{":
                    break
                if clause and indent_of(lines[at]) == indent + 4:
                    clauses.append((clause[1], [words[clause.end() :]]))
                elif clauses:
                    clauses[-1][1].append(words)
                else:
                    head.append(lines[at])
                at += 1
            function = re.match(r"\s*(\w+)", item[2])[1]
            parameters = re.findall(r"(\w+)\s*:(?!:)", "\n".join(head))
            for clause, body in clauses:
                yield "::".join(filter(None, [name, function])), clause, parameters, "\n".join(body)


def module_of(crate, path):
    """Returns the name of the module in a file of src/."""
    parts = path.relative_to(TOP / f"crates/{crate}/src").with_suffix("").parts
    return "::".join([crate, *(it for it in parts if it not in ("lib", "main", "mod"))])


def citing(definition, known, definitions):
    """Returns what cites a definition: the functions by module, each with its clauses, and the definitions by file."""
    functions, others = {}, {}
    for crate in crates():
        for path in sorted((TOP / f"crates/{crate}/src").rglob("*.rt")):
            text = path.read_text(encoding="utf-8")
            if definition.name in text:
                scope = Scope(known, text)
                for function, clause, parameters, body in contracts_of(text):
                    if definition.key in scope.cited(body, parameters):
                        functions.setdefault(module_of(crate, path), {}).setdefault(function, []).append(clause)
    texts = {}
    for it in definitions:
        if it.key != definition.key and definition.name in texts.setdefault(it.path, (TOP / it.path).read_text(encoding="utf-8")):
            if definition.key in scope_of(it, known, definitions, texts[it.path]).cited_by(it):
                others.setdefault(it.path, []).append(it.name)
    return functions, others


def scope_of(definition, known, definitions, text):
    """Returns the names that a definition can use: those of its file, and those that the file imports."""
    return Scope(known, text, [it for it in definitions if (it.crate, it.file) == (definition.crate, definition.file)])


def first_sentence(comment):
    return re.split(r"(?<=\.)\s", comment)[0] if comment else "(it has no comment)"


def listed(definitions):
    return "\n".join(f"{it}: {it.name}: {first_sentence(it.comment)}" for it in definitions)


def shown(definition, known, definitions, cites):
    """Returns the text of a definition, its place, and what cites it. With `cites` also what it cites."""
    parts = [f"{definition}: {definition.name}\n"]
    parts += [f"in {it}" for it in definition.modules]
    parts += [definition.text, ""]
    functions, others = citing(definition, known, definitions)
    for module, names in functions.items():
        named = {name: ", ".join(dict.fromkeys(filter(None, clauses))) for name, clauses in names.items()}
        parts.append(f"cited by {module}: " + ", ".join(f"{name} ({clauses})" if clauses else name for name, clauses in named.items()))
    parts += [f"cited by {path}: {', '.join(dict.fromkeys(names))}" for path, names in others.items()]
    if not functions and not others:
        parts.append("no contract and no other definition cites it")
    if cites:
        text = (TOP / definition.path).read_text(encoding="utf-8")
        keys = scope_of(definition, known, definitions, text).cited_by(definition)
        parts += [f"cites {it}: {it.name}: {first_sentence(it.comment)}" for it in definitions if it.key in keys]
    return "\n".join(parts) + "\n"


def main():
    parser = argparse.ArgumentParser(prog="docs/definitions.py", description=__doc__, formatter_class=argparse.RawDescriptionHelpFormatter)
    parser.add_argument("names", nargs="*", metavar="NAME", help="the name of a definition, or a part of a name")
    parser.add_argument("--crate", metavar="CRATE", choices=crates(), help="search only the specs/ of this crate (what cites a definition is searched for in all crates)")
    parser.add_argument("--cites", action="store_true", help="show also the definitions that the definition itself cites")
    parser.add_argument("--list", action="store_true", help="list the public definitions, one on each line")
    parser.add_argument("--uncommented", action="store_true", help="list the public definitions without a comment; the exit status is 1 if there are any")
    words = parser.parse_args()
    signal.signal(signal.SIGPIPE, signal.SIG_DFL)
    if bool(words.names) + words.list + words.uncommented != 1:
        parser.error("give one of: names, --list, --uncommented")
    definitions = all_definitions(crates())
    among = [it for it in definitions if words.crate in (None, it.crate)]
    public = [it for it in among if it.is_public]
    where = f"in the specs/ of {words.crate}" if words.crate else "in any crate's specs/"
    if words.list:
        print(listed(public) or f"definitions: there is no public definition {where}")
        return 0 if public else 1
    if words.uncommented:
        bare = [it for it in public if not it.comment]
        print("".join(f"{it}: {it.name}\n" for it in bare) + f"definitions: {len(bare)} of {len(public)} have no comment")
        return 1 if bare else 0
    known, missing = known_names(definitions), False
    for name in words.names:
        exact = [it for it in among if it.name == name]
        similar = [it for it in among if name.casefold() in it.name.casefold()]
        if exact:
            print("\n".join(shown(it, known, definitions, words.cites) for it in exact))
        elif similar:
            print(f"definitions: no definition {where} has the name {name}; did you mean:\n{listed(similar)}\n")
        else:
            print(f"definitions: no definition {where} has the name {name}, or a name that contains it", file=sys.stderr)
            missing = True
    return 1 if missing else 0


if __name__ == "__main__":
    sys.exit(main())
