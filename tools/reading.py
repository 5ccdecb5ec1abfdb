"""Reads the definitions of specs/ and the contracts of src/, and finds what words in them stand for.

A file of specs/ is split by indentation into statements: `use` lines, sections (`module _ (..) where`),
declarations (a signature, or a record or a data type with all its members), and the equations and
`unfolding` lines after a signature. Names are looked up as antt does, first what a binder or a pattern
takes, then the file's own and its `use` lines; but what is bound anywhere in a signature, an equation
or a field counts as bound in all of it.
"""

import collections
import re
import sys

from clauses import CLAUSE, GHOST, blanked, closing, sources, spans

USE = re.compile(r"^[ \t]*(?:ghost )?use ([^\s{;]+?)(?:\.?\{([^}]*)\}|\s+as (\S+?))?;?$", re.MULTILINE)
DECLARES = re.compile(r"(?:(?:abbrev|unfoldable|pub|axiom)\s+)*(record\s|data\s)?\s*([^\s(){}:]+)(.*)", re.DOTALL)
WORD = re.compile(r"[^\s(){}\[\],;]+")
BINDER = re.compile(r"λ\s+(.*?)\.(?!\w)|[({]([^(){}:=]+?)\s:\s|\blet\s+(.+?)\s[:=]\s|[\[|]([^\[\]|]*)↦", re.DOTALL)
LABEL = re.compile(r"([{;]\s*)[^\s{};]+(\s=\s)")
BLOCK = re.compile(r"^(?:pub(?:\([^)]*\))? )?(?:unsafe )?(impl|trait)\b([^{]*)\{", re.MULTILINE)
FUNCTION = re.compile(r"\bfn\s+(\w+)")

# A signature, an equation, a field, a constructor or a clause: its term is read in its scope, where its
# patterns, the binders of the header over it and its own take names away.
Part = collections.namedtuple("Part", "scope header patterns term")
RustType = collections.namedtuple("RustType", "crate file name")


class Definition:
    def __init__(self, module, name, kind, section):
        self.module, self.name, self.kind = module, name, kind
        # The numbers of its lines, and of those that open the section in which it is.
        self.lines, self.section = [], section
        self.parts = []


def cut(text, marks):
    """The text up to the first of the marks that stands in no brackets, that mark, and the rest."""
    depth = 0
    for match in re.finditer(r"[({\[]|[)}\]]|(?<=\s)[:=](?=\s)", text):
        depth += (match.group(0) in "({[") - (match.group(0) in ")}]")
        if depth == 0 and match.group(0) in marks:
            return text[: match.start()], match.group(0), text[match.end() :]
    return text, "", ""


def imports(text):
    """What each name that the `use` lines of a text bring stands for."""
    found = {}
    for path, items, alias in USE.findall(text):
        for item in filter(None, map(str.strip, items.split(","))):
            name, _, other = item.partition(" as ")
            for word in filter(None, (other or name).strip("«»").split("◌")):
                found[word] = f"{path}.{name}"
        if not items:
            found[alias or path.split(".")[-1]] = path
    return found


def statements(lines):
    """Splits numbered lines before each that is indented no further than the first."""
    found, least = [], 0
    for number, line in lines:
        indent = len(line) - len(line.lstrip())
        least = indent if not found else least
        if not found or indent <= least and line.lstrip()[0] not in ")}]":
            found.append([])
        found[-1].append((number, line))
    return found


def joined(lines):
    return "\n".join(line for _, line in lines).strip()


class Specs:
    """The definitions of every file of specs/, lowest crate first and in the order of its Lib.antt."""

    def __init__(self, top):
        self.top, self.files, self.found, self.constructors = top, {}, {}, {}
        self.crates = re.findall(r"^(\w+)[^:#\n]*:", (top / "crates.txt").read_text(), re.MULTILINE)
        for crate in self.crates:
            index = top / "crates" / crate / "specs" / "Lib.antt"
            for name in re.findall(r"pub mod (\w+)", index.read_text() if index.exists() else ""):
                self.read(f"Rattle.{crate}.specs.{name}", index.with_name(name + ".antt"))

    def read(self, module, path):
        text = re.sub(r'"[^"\n]*"|(?<!\S)--.*', "", path.read_text(encoding="utf-8"))
        lines = [(number, line) for number, line in enumerate(text.split("\n"), 1) if line.strip()]
        self.files[module] = path.relative_to(self.top)
        self.parse(module, imports(text), "", [], lines)

    def parse(self, module, scope, header, section, lines):
        latest = None
        for statement in statements(lines):
            text = joined(statement)
            ends = [place for place, (_, line) in enumerate(statement, 1) if line.rstrip().endswith(" where")]
            head, members = statement[: ends[0]] if ends else statement, statement[ends[0] :] if ends else []
            if re.match(r"(pub )?(use|mod) ", text):
                continue
            if text.startswith("module "):
                self.parse(module, scope, joined(head), section + [number for number, _ in head], members)
                continue
            if cut(text, ":=")[1] == ":":
                latest = self.declare(module, scope, header, section, joined(head), members)
            elif text.startswith("unfolding "):
                latest.parts.append(Part(scope, "", "", text.partition(" ")[2]))
            else:
                patterns, _, term = cut(text, "=")
                latest.parts.append(Part(scope, header, patterns, term))
            latest.lines += [number for number, _ in statement]

    def declare(self, module, scope, header, section, head, members):
        kind, name, rest = DECLARES.match(head).groups()
        latest = Definition(module, name.strip("«»"), (kind or "definition").strip(), section)
        scope[latest.name] = f"{module}.{latest.name}"
        self.found[scope[latest.name]] = latest
        latest.parts += [Part(scope, "", "", header), Part(scope, header, "", rest)]
        fields = ""
        for member in statements(members):
            label, _, term = cut(joined(member), ":")
            label = label.replace("pub ", "").strip()
            latest.parts.append(Part(scope, header + rest, fields, term))
            if latest.kind == "record":
                fields += label + " "
            else:
                scope[label] = f"{module}.{label}"
                self.constructors[scope[label]] = latest
        return latest

    def target(self, scope, word):
        """The definition or the Rust type for which a word stands, if any; and whether the word constructs it."""
        head, *fields = word.strip("«»").split(".")
        path = scope.get(head, "").split(".") + [field for field in fields if field]
        if len(path) < 5 or path[1] not in self.crates or path[2] != "specs":
            return None, False
        if path[3] == "declared":
            names = path[4 : path.index("TheVariants") if "TheVariants" in path else -1]
            found = RustType(path[1], "/".join(names[:-1]) or "lib", names[-1]) if names else None
            return found, "TheVariants" in path
        name = ".".join(path[:5])
        if name not in self.found and name not in self.constructors:
            print(f"not found: {name}", file=sys.stderr)
        return self.found.get(name) or self.constructors.get(name), name in self.constructors

    def words(self, part):
        """What a part names: definitions, Rust types, and nothing for each other word."""
        bound = WORD.findall(part.patterns)
        for match in BINDER.finditer(part.header + " " + part.term + " "):
            bound += WORD.findall(re.sub(r"\s:\s[^()]*", " ", next(filter(None, match.groups()), "")))
        bound = {word for word in bound if not self.target(part.scope, word)[1]}
        for word in WORD.findall(part.patterns + " " + LABEL.sub(r"\1\2", part.term)):
            if not word.startswith(".") and word.split(".")[0] not in bound:
                yield self.target(part.scope, word)[0]

    def rests_on(self, parts):
        """The definitions and the Rust types on which parts rest."""
        found, left = set(), list(parts)
        while left:
            for word in set(self.words(left.pop())) - found - {None}:
                found.add(word)
                left += word.parts if isinstance(word, Definition) else []
        return found


class Source:
    """A file of src/: its functions, each with where its contract begins and ends, and its clauses and
    ghost members and fields."""

    def __init__(self, path):
        self.path, self.text = path, blanked(path.read_text(encoding="utf-8"))
        self.blocks = [(m.start(), closing(self.text, m.end() - 1), m) for m in BLOCK.finditer(self.text)]
        self.functions = [(m.start(), self.end_of_contract(m.end()), m.group(1)) for m in FUNCTION.finditer(self.text)]
        self.clauses, self.ghosts = list(spans(self.text, CLAUSE)), list(spans(self.text, GHOST))

    def end_of_contract(self, place):
        while self.text[place] not in "{;":
            clause = CLAUSE.match(self.text, place)
            start = clause.end() if clause else place
            place = closing(self.text, start) if self.text[start] in "([{" else place + 1
        return place

    def around(self, place):
        """The impl or the trait in which a place is."""
        return [block for block in self.blocks if block[0] <= place < block[1]]

    def header(self, span):
        """What stands over a clause, or a ghost member or field: its impl or trait, and a clause's function."""
        over = [match.group(2) for _, _, match in self.around(span[0])]
        if span in self.clauses:
            start = max(start for start, _, _ in self.functions if start < span[0])
            over.append(self.text[start : CLAUSE.search(self.text, start).start()])
        return " ".join(over)

    def part(self, span):
        """A clause, or a ghost member or field, in its scope."""
        uses = re.finditer(r"^[ \t]*ghost use [^;]*;", self.text, re.MULTILINE)
        around = self.around(span[0])
        text = "\n".join(use.group(0) for use in uses if self.around(use.start()) in ([], around))
        names = re.findall(r"(\w+)\s*:(?!:)", self.header(span)) + ["self", "result"]
        return Part(imports(text), "", " ".join(names), self.text[self.text.index("{", span[0]) : span[1]])

    def contract(self, name):
        """The clauses of the functions of a name."""
        ends = [(start, end) for start, end, other in self.functions if other == name]
        return [span for span in self.clauses if any(start < span[0] < end for start, end in ends)]
