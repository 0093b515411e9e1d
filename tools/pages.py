#!/usr/bin/env python3
"""Writes what the pages take from the sources: docs/CALLS.md, docs/DEFINITIONS.md, the crates and
the scripts in docs/ARCHITECTURE.md, limits, words, codes and the map in docs/RULES.md, the
headline in docs/PROVED.md, and that, the sizes and the prover's time in docs/RESEARCH.md; by words.py
lotbook.1 and completions/.

    tools/pages.py            writes them
    tools/pages.py --check    compares them with the sources, and so the codes that pages and
                              definitions name; each is a case of tests/lib/tally.py

What is written comes from crates.txt, the `//!` of each crate, the `///` and the contracts of its
public items, its `ghost use` lines, the comments of its definitions in specs/, the numbers of its
constants, the words of lot_args, what lot_explain says of each code, the comments with which
scripts begin, and bench/prover.json; but for the words beside a limit, and parts of the map, which
stand below.
"""
import json
import re
import sys
from collections import OrderedDict, namedtuple
from pathlib import Path

sys.dont_write_bytecode = True
ROOT = Path(__file__).resolve().parent.parent
sys.path.append(str(ROOT / "tests/lib"))
import tally  # noqa: E402
import words as subcommands  # noqa: E402

CRATES = ROOT / "crates"
NOTICE = "<!-- Written by tools/pages.py from the sources: change those, and run it again. -->\n"
LONGEST_CELL = 240
LONGEST_CLAUSE = 120  # a clause without a name is written out up to this length
MOST_CALLS = 12  # the calls of a crate are named up to this many
TEST_CRATES = ("lot_tests", "lot_stops")

FUNCTION = re.compile(r"^( *)(pub )?(?:const )?fn (\w+)", re.M)
TYPE = re.compile(r"^pub (struct|enum|trait|type) (\w+)", re.M)
GHOST = re.compile(r"^    ghost (\w+): \{", re.M)
OWNER = re.compile(r"^(impl\b|pub trait\b|trait\b)([^{;]*)", re.M)
PASSED_ON = re.compile(r"^pub use ([\w:]+?)(?:::\{([^}]*)\})?;", re.M)
SIGNATURE_END = re.compile(r"\s(?:(?:requires|ensures)\b|//)")
CLAUSE = re.compile(r"(requires|ensures)\b\s*(\w+)?\s*\{")
IMPORT = re.compile(r"^ *(?:ghost )?use Rattle\.(lot_\w+)\.specs\.([\w.]+)\.\{([^}]*)\}", re.M)
CITED = re.compile(r"(?<![.\w])([^\W\d][\w×′']*)(?! = )(?![\w×′'])")
BOUND = re.compile(r"λ ((?:\w+ ?)+)\.|\(((?:\w+ )+): ")
DEFINITION = re.compile(
    r"^(?:abbrev |unfoldable )?pub (record |data )?(?!mod\b|use\b)(\S+)", re.M
)
PART = re.compile(r"^  (?:pub )?(\w+) :", re.M)
SAYS_NOTHING = re.compile(r"\s*(?://|--|$)")
ANY_FUNCTION = re.compile(r"^\s*(?:pub(?:\(\w+\))? )?(?:const )?fn ", re.M)
PROOF_STARTS = re.compile(r"^[ ]*(?:ghost|requires|ensures)\b", re.M)

Type = namedtuple("Type", "name kind docs members")
Item = namedtuple("Item", "title signature docs contract modules is_law")
Clause = namedtuple("Clause", "kind name said cited")


# ---- texts


def quoted(words):
    return ", ".join("`%s`" % word for word in words)


def comment_above(text, at, mark):
    """The lines of a comment that end above a place; attributes in between are passed over."""
    lines = text[:at].splitlines()
    if at and text[at - 1] != "\n":
        lines.pop()
    while lines and re.match(r"\s*#\[", lines[-1]):
        lines.pop()
    found = []
    while lines and lines[-1].strip().startswith(mark):
        found.insert(0, lines.pop())
    return found


def paragraphs(lines, mark):
    """The paragraphs of a comment."""
    found = [[]]
    for line in lines:
        said = line.strip()[len(mark) :].strip()
        if said:
            found[-1].append(said)
        elif found[-1]:
            found.append([])
    return [" ".join(part) for part in found if part]


def listed(lines):
    """The items of the lists of a `//!`."""
    found = []
    for line in lines:
        said = line[3:]
        if said.startswith(" - "):
            found.append(said[3:].strip())
        elif said.startswith("   ") and found:
            found[-1] += " " + said.strip()
    return found


def first_sentence(said):
    """A text up to the first full stop that stands in no brackets and in no quotes of code."""
    brackets, is_code = 0, False
    for at, char in enumerate(said):
        if char == "`":
            is_code = not is_code
        brackets += (char == "(") - (char == ")")
        ends = said[at + 1 : at + 2] in ("", " ") and said[at - 1] != "."
        if char == "." and ends and brackets == 0 and not is_code:
            return said[: at + 1]
    return said


# ---- contracts


def closing(text, at):
    """The place behind the brace that closes the one at a place."""
    depth = 0
    for end in range(at, len(text)):
        depth += (text[end] == "{") - (text[end] == "}")
        if depth == 0:
            return end + 1
    raise ValueError("a brace isn't closed")


def signature(text, at):
    """The signature behind a function's name, on one line, and where it ends."""
    depth, end = 0, at
    for end in range(at, len(text)):
        char = text[end]
        depth += (char in "([") - (char in ")]")
        if depth == 0 and (char in "{;" or SIGNATURE_END.match(text, end)):
            break
    said = re.sub(r"\s+", " ", text[at:end]).strip()
    return re.sub(r",? \)", ")", said.replace("( ", "(")), end


def cited_in(said, known):
    """The definitions that a clause cites: no word that it binds, no field, no part of a record."""
    bound = {word for names in BOUND.findall(said) for word in " ".join(names).split()}
    words = (word for word in CITED.findall(said) if word in known and word not in bound)
    return list(OrderedDict.fromkeys(words))


def contract(text, at, known):
    """The clauses that begin at a place."""
    found = []
    while True:
        at += re.match(r"(?:\s|//[^\n]*\n)*", text[at:]).end()
        match = CLAUSE.match(text, at)
        if not match:
            return found
        at = closing(text, match.end() - 1)
        said = " ".join(re.sub(r"(--|//).*", "", text[match.end() : at - 1]).split())
        found.append(Clause(match.group(1), match.group(2), said, cited_in(said, known)))


def ghost_members(text, at, known):
    """The ghost members that the trait declares which begins at a place: what each implementation
    says of itself, and the laws that it meets."""
    block = text[at : closing(text, text.index("{", at))]
    for match in GHOST.finditer(block):
        said = block[match.end() : closing(block, match.end() - 1) - 1]
        yield Clause("ghost", match.group(1), " ".join(said.split()), cited_in(said, known))


def imported(text):
    """The definitions of our crates that a file imports, each with its crate and module."""
    return {
        word.strip(): (crate, module)
        for crate, module, words in IMPORT.findall(text)
        if not module.startswith("declared")
        for word in words.split(",")
        if word.strip()
    }


# ---- crates


def stands_on():
    """What each crate stands on, in the order of crates.txt."""
    found = OrderedDict()
    for line in (ROOT / "crates.txt").read_text().splitlines():
        if re.match(r"[a-z]", line):
            name, below = line.split(":")
            found[name] = below.split()
    return found


def owner_at(text, at):
    """The type or the public trait in whose block a place is, and whether it is a trait. Of a trait
    that is implemented there is none: its functions are told where it is declared."""
    found = list(OWNER.finditer(text, 0, at))
    if not found:
        return None, False
    kind, said = found[-1].groups()
    said = said.strip()
    if said.startswith("<"):
        depth = 0
        for end, char in enumerate(said):
            depth += (char == "<") - (char == ">" and said[end - 1] != "-")
            if depth == 0:
                break
        said = said[end + 1 :].strip()
    if kind == "trait" or (kind == "impl" and " for " in said):
        return None, False
    return re.match(r"\w+", said).group(), kind == "pub trait"


class Crate:
    """A crate, as far as the pages speak of it."""

    def __init__(self, name):
        self.name = name
        self.source = CRATES / name / "src"
        root = self.source / "lib.rt"
        text = (root if root.exists() else self.source / "main.rt").read_text()
        head = [line for line in text.splitlines() if line.startswith("//!")]
        self.subject = first_sentence(paragraphs(head, "//!")[0])
        self.modules = listed(head)
        self.open = set(re.findall(r"^pub mod (\w+);", text, re.M))
        self.passed_on, self.exported = [], {}
        for path, words in PASSED_ON.findall(text):
            top, _, last = path.partition("::")
            names = [word.strip() for word in words.split(",") if word.strip()]
            names = names or [last.rpartition("::")[2]]
            if (CRATES / top).exists():
                self.passed_on.append((top, names))
            else:
                self.exported.setdefault(top, set()).update(names)
        self.types, self.items = [], []
        for path in sorted(self.source.rglob("*.rt")):
            module = path.relative_to(self.source).parts[0].replace(".rt", "")
            prefix = path.stem + "::" if module in self.open and module != "laws" else ""
            self.take(path.read_text(), module, prefix)

    def has(self, module, name):
        """Whether a module's item of that name is public."""
        return module in self.open or name in self.exported.get(module, ())

    def has_type(self, module, name):
        """Whether a type is public, wherever a module of the crate has its functions."""
        return module in self.open or any(name in names for names in self.exported.values())

    def title(self, text, module, match):
        """What a public function is called, with its type or trait; none of one that isn't."""
        indent, is_public, name = match.groups()
        if not indent:
            return name if is_public and self.has(module, name) else None
        owner, is_trait = owner_at(text, match.start())
        if len(indent) != 4 or not owner or not (is_public or is_trait):
            return None
        return "%s::%s" % (owner, name) if self.has_type(module, owner) else None

    def take(self, text, module, prefix):
        """Takes the public items of a file of a module."""
        scope = imported(text)
        for match in TYPE.finditer(text):
            kind, name = match.groups()
            if self.has(module, name):
                docs = paragraphs(comment_above(text, match.start(), "///"), "///")
                is_trait = kind == "trait"
                members = list(ghost_members(text, match.start(), scope)) if is_trait else []
                self.types.append(Type(prefix + name, kind, docs, members))
        for match in FUNCTION.finditer(text):
            title = self.title(text, module, match)
            if title:
                docs = paragraphs(comment_above(text, match.start(), "///"), "///")
                said, end = signature(text, match.end())
                clauses = contract(text, end, scope)
                cited = OrderedDict.fromkeys(scope[word] for of in clauses for word in of.cited)
                is_law = module == "laws" or self.name == "lot_laws"
                self.items.append(Item(prefix + title, said, docs, clauses, cited, is_law))


# ---- pages


def clause_text(clause):
    if clause.name:
        return "`%s`" % clause.name + (" (%s)" % quoted(clause.cited) if clause.cited else "")
    if len(clause.said) <= LONGEST_CLAUSE:
        return "`%s`" % clause.said
    return "a clause by " + quoted(clause.cited)


def modules_text(crate, cited):
    """The modules of definitions, those of the crate itself first."""
    modules = {}
    for owner, module in cited:
        modules.setdefault(owner, []).append(module)
    owners = sorted(modules, key=lambda owner: (owner != crate.name, owner))
    return "; ".join(
        quoted(sorted(modules[owner])) + ("" if owner == crate.name else " of `%s`" % owner)
        for owner in owners
    )


def item_lines(crate, item):
    """What docs/CALLS.md says of a function."""
    shown = "" if item.is_law and item.signature == "()" else " `%s`" % item.signature
    yield "- **`%s`**%s: %s" % (item.title, shown, item.docs[0] if item.docs else "(no comment)")
    parts = []
    for kind in ("requires", "ensures"):
        clauses = [clause_text(clause) for clause in item.contract if clause.kind == kind]
        if clauses:
            parts.append("%s %s" % (kind, ", ".join(clauses)))
    if parts:
        cited = modules_text(crate, item.modules)
        yield "  - %s%s" % ("; ".join(parts), ". Definitions: " + cited if cited else "")


def type_line(of):
    said = first_sentence(of.docs[0]) if of.docs else "(no comment)"
    members = ", ".join(map(clause_text, of.members))
    return "- `%s`: %s%s" % (of.name, said, " Ghost members: %s." % members if members else "")


def section(heading, lines):
    """A heading with a list below it, where the list has lines."""
    lines = list(lines)
    if lines:
        yield heading + ":\n"
        yield "\n".join(lines) + "\n"


def calls(crates):
    """docs/CALLS.md"""
    yield "# Calls\n\n" + NOTICE
    yield (
        "Each public call of each crate, in the order of `crates.txt`, from below: what it does, "
        "by the first paragraph of its comment, and its contract by the names of the clauses. In "
        "brackets stand the definitions that a clause cites, and behind *Definitions* the modules "
        "of `specs/` that have them ([DEFINITIONS.md](DEFINITIONS.md)). A clause without a name is "
        "written out where it is short. What is proved is the contract, not the comment. A law is "
        "a function that does nothing: its contract says what definitions come to. What a trait of "
        "`std` has (comparing, ordering, printing) is left out. [PROVED.md](PROVED.md) says which "
        "promise rests on which contract, and what isn't said.\n"
    )
    for crate in crates.values():
        yield "## %s\n" % crate.name
        yield crate.subject + "\n"
        yield from section("Modules", ("- " + said for said in crate.modules))
        if crate.passed_on:
            passed = ("%s of `%s`" % (quoted(names), top) for top, names in crate.passed_on)
            yield "It passes on %s.\n" % "; ".join(passed)
        traits = [of for of in crate.types if of.kind == "trait"]
        yield from section("Traits", map(type_line, traits))
        yield from section("Types", (type_line(of) for of in crate.types if of not in traits))
        for heading, is_law in (("Calls", False), ("Laws", True)):
            items = (item for item in crate.items if item.is_law == is_law)
            yield from section(heading, (l for item in items for l in item_lines(crate, item)))


def body_of(text, at):
    """The text of the definition that begins at a place: up to an empty line or a comment."""
    return re.compile(r"\n\n|\n--|\Z").split(text[at:], 1)[0]


def defined_over(name, body, known):
    """The definitions that one cites: none of the words that its equations bind."""
    body = re.sub(r"--.*", "", body)
    equations = re.findall(r"^%s\b(.*?) =(?: |$)" % re.escape(name), body, re.M)
    bound = set(re.findall(r"\w+", " ".join(equations))) | {name}
    return [word for word in cited_in(body, known) if word not in bound]


def part_text(body, match):
    """A part of a record, or a case, with the comment above it."""
    said = " ".join(paragraphs(comment_above(body, match.start(), "--"), "--"))
    return "`%s`" % match.group(1) + (" (%s)" % said if said else "")


def definition_lines(text):
    """The public definitions of a module, one a line; those of which nothing is told in one."""
    bare = []
    known = set(imported(text)) | {match.group(2) for match in DEFINITION.finditer(text)}
    for match in DEFINITION.finditer(text):
        kind, name = match.groups()
        above = comment_above(text, match.start(), "--")
        said = " ".join(paragraphs((l for l in above if not l.startswith("-- ----")), "--"))
        body = body_of(text, match.start())
        parts = [part_text(body, part) for part in PART.finditer(body)] if kind else []
        over = defined_over(name, body, known)
        told = [said.rstrip(".")] if said else []
        called = "cases" if kind == "data " else "parts"
        told += ["%s %s" % (called, ", ".join(parts))] if parts else []
        told += ["over " + quoted(over)] if over else []
        if told:
            yield "- `%s`: %s" % (name, "; ".join(told))
        else:
            bare.append(name)
    if bare:
        yield "- also " + quoted(bare)


def calls_by_module(crates):
    """For each module of definitions the calls and laws whose contracts cite it."""
    found = {}
    for crate in crates.values():
        for item in crate.items:
            for module in item.modules:
                of_crate = found.setdefault(module, OrderedDict()).setdefault(crate.name, [])
                if item.title not in of_crate:
                    of_crate.append(item.title)
    return found


def citing_text(by_crate):
    """The calls that cite a module; of a crate with many how many they are."""
    for name, titles in by_crate.items():
        many = len(titles) > MOST_CALLS
        yield ("%d calls" % len(titles) if many else quoted(titles)) + " of `%s`" % name


def definitions(crates):
    """docs/DEFINITIONS.md"""
    cited = calls_by_module(crates)
    yield "# Definitions\n\n" + NOTICE
    yield (
        "Where a definition lives: each public definition of `specs/`, by crate and module in the "
        "order of `crates.txt`, with the comment that stands above it, its parts or cases with "
        "theirs, and behind *over* the definitions of our crates that it cites. Behind *In the "
        "contracts of* stand the public calls and laws whose contracts cite the module; "
        "[CALLS.md](CALLS.md) has their clauses.\n"
    )
    for name in crates:
        folder = CRATES / name / "specs"
        modules = sorted(path for path in folder.rglob("*.antt") if path.stem != "Lib")
        if modules:
            yield "## %s\n" % name
        for path in modules:
            text = path.read_text()
            parts = path.relative_to(folder).with_suffix("").parts
            yield "### %s `%s`\n" % (name, ".".join(parts))
            head = re.match(r"(?:--.*\n)*", text).group().splitlines()
            if head:
                yield " ".join(paragraphs(head, "--")) + "\n"
            lines = list(definition_lines(text))
            if lines:
                yield "\n".join(lines) + "\n"
            by_crate = cited.get((name, ".".join(parts)))
            if by_crate:
                yield "In the contracts of %s.\n" % "; ".join(citing_text(by_crate))


def crate_table(crates, below):
    """The table of crates: the level of each, its subject, and what it stands on directly."""
    ours = {name: [word for word in words if word in below] for name, words in below.items()}
    levels, reached = {}, {}

    def climb(name):
        if name not in levels:
            levels[name] = 1 + max(map(climb, ours[name]), default=0)
            reached[name] = set(ours[name]).union(*(reached[word] for word in ours[name]))
        return levels[name]

    yield "%d crates in %d levels:\n" % (len(below), max(map(climb, below)))
    yield "| Crate | Level | Subject | Stands on |"
    yield "|---|---|---|---|"
    for name in sorted(below, key=levels.get):
        direct = [w for w in ours[name] if not any(w in reached[other] for other in ours[name])]
        kit = [word for word in below[name] if word not in below]
        kit = [word for word in kit if not re.match(r"sqlite_|jiff_core|thiserror", word)]
        subject = re.sub(r" \(docs/[^)]*\)", "", crates[name].subject)
        yield "| `%s` | %d | %s | %s |" % (name, levels[name], subject, quoted(direct + kit))


def script_subject(path):
    """The first sentence of the comment, or of the docstring, with which a script begins."""
    text = path.read_text()
    if path.suffix == ".py":
        head, mark = re.search(r'"""(.*?)"""', text, re.S), ""
    else:
        head, mark = re.match(r"(?:#!.*\n)?((?:#.*\n)*)", text), "#"
    said = paragraphs(head.group(1).splitlines(), mark) if head else []
    return first_sentence(said[0]) if said else "(no comment)"


def scripts():
    """A line for each script, by folder: what it is for."""
    for top in ("tools", "tests", "bench"):
        found = [path for path in (ROOT / top).rglob("*") if path.suffix in (".sh", ".py")]
        found += [path for path in (ROOT / top).iterdir() if top == "tools" and not path.suffix]
        for path in sorted(found, key=lambda path: (len(path.parts), path)):
            if path.is_file():
                yield "- `%s`: %s" % (path.relative_to(ROOT).as_posix(), script_subject(path))


# ---- sizes


def counted(text):
    """The lines that say something: none that is empty or a comment alone."""
    return sum(not SAYS_NOTHING.match(line) for line in text.splitlines())


def contract_lines(text):
    """The lines of contracts, of ghost parts of types and traits, and of what these import."""
    text = "\n".join(line for line in text.splitlines() if not SAYS_NOTHING.match(line))
    found, end = 0, 0
    for match in PROOF_STARTS.finditer(text):
        if match.start() >= end:
            at = re.compile(r"[{;]").search(text, match.end())
            end = closing(text, at.start()) if at.group() == "{" else at.end()
            found += text.count("\n", match.start(), end) + 1
    return found


def size(name):
    """A crate's functions and lines: code, contracts, definitions, proofs; no file with a test."""
    home = CRATES / name
    code = [path.read_text() for path in sorted(home.glob("src/**/*.rt"))]
    code = [text for text in code if "#[test]" not in text]
    contracts = sum(map(contract_lines, code))
    return (
        sum(len(ANY_FUNCTION.findall(text)) for text in code),
        sum(map(counted, code)) - contracts,
        contracts,
        sum(counted(path.read_text()) for path in home.glob("specs/**/*.antt")),
        sum(counted(path.read_text()) for path in home.glob("proofs/**/*.antt")),
    )


def sizes(below):
    """The table of sizes, by crate, without the crates of tests."""
    rows = [(name, size(name)) for name in below if name not in TEST_CRATES]
    whole = tuple(map(sum, zip(*(row for _, row in rows))))
    yield "| Crate | Functions | Code | Contracts | Definitions | Proofs |"
    yield "|---|---|---|---|---|---|"
    for name, row in rows:
        yield "| `%s` | %s |" % (name, " | ".join(map("{:,}".format, row)))
    yield "| all | %s |" % " | ".join(map("{:,}".format, whole))
    yield ""
    shares = ["%.1f" % (part / whole[1]) for part in whole[2:]]
    yield "For each line of code: %s of contracts, %s of definitions, %s of proofs." % tuple(shares)
    edits = [len(list(CRATES.glob("*/%s/*.edit" % folder))) for folder in ("must-fail", "edits")]
    yield "Wrong bodies: %d in the gate, %d beside it." % tuple(edits)


# ---- the prover's time


def prover_time(below):
    """What the proofs of each crate took, by bench/prover.json, which bench/gate.sh writes."""
    path = ROOT / "bench/prover.json"
    if not path.exists():
        yield "The time of each crate wasn't measured."
        return
    kept = json.loads(path.read_text())
    seconds = kept["seconds"]
    seconds = OrderedDict((name, seconds[name]) for name in below if name in seconds)
    said = "Processor time of the proofs, from nothing, on %s, on a machine of %d processors%s:"
    yield said % (kept["day"], kept["processors"], " that was busy with other work, too" if kept.get("busy") else "")
    yield ""
    yield "| Crate | Seconds | A function |"
    yield "|---|---|---|"
    for name, spent in seconds.items():
        yield "| `%s` | %s | %.1f |" % (name, "{:,.0f}".format(spent), spent / (size(name)[0] or 1))
    whole, functions = sum(seconds.values()), sum(size(name)[0] for name in seconds)
    yield "| these | %s | %.1f |" % ("{:,.0f}".format(whole), whole / functions)


# ---- the headline and the codes


def headline():
    """The law of the headline, as lot_headline has it."""
    text = (CRATES / "lot_headline/src/headline.rt").read_text()
    at = text.index("pub fn calls_keep_the_headline")
    yield "```text"
    yield text[at : text.index("\n{}", at)]
    yield "```"


def all_codes():
    """What lot_explain tells of: the code, which is the name where it has no other, the name, what is wrong, and where to read on."""
    home = CRATES / "lot_explain/src/codes"
    order = re.findall(r"&(\w+)::CODES", home.with_suffix(".rt").read_text())
    told = re.compile(
        r'code: (?:concat!\("(\w)", )?"([^"]*)"\)?,\s*name: "([^"]*)",\s*brief: "((?:[^"\\]|\\.)*)".*?page: "docs/([^"]*)"',
        re.S,
    )
    for part in order:
        for letter, code, name, brief, page in told.findall((home / (part + ".rt")).read_text()):
            yield letter + code, name, re.sub(r"\\\n\s*", "", brief), page


def explained():
    """Those of them that have a code."""
    return ((code, name, brief, page) for code, name, brief, page in all_codes() if code != name)


def codes():
    """The table of all codes."""
    yield "| Code | What is wrong | Read on |"
    yield "|---|---|---|"
    for code, name, brief, page in explained():
        file, part = page.split(", ", 1)
        target = ("" if file == "RULES.md" else file) + "#" + part.lower().replace(" ", "-")
        # A letter of papers stands apart from its number, as in the sources.
        shown = "`%s` %s `%s`" % (code[0], code[1:], name) if code[0] in "DRTW" else "`%s %s`" % (code, name)
        yield "| %s | %s | [%s](%s) |" % (shown, brief, part, target)


# ---- the words of the program


# What of the options stands in several rows of the table, or makes one too long: it is told once, below them.
ROUNDING = "[--rounding ACCOUNT [--within AMOUNT] [--decimals N]]"
ACCOUNTS = "--invest ACCOUNT --cash ACCOUNT --fees ACCOUNT --gains ACCOUNT"


def words():
    """The table of the words of the program: the options of each, and what its help begins with."""
    text = (CRATES / "lot_args/src/program.rt").read_text()
    told = re.compile(r'((?:^ +//[^\n]*\n)+) +Word \{\s+name: "(\w+)",\s+brief: "[^"]*",\s+about: "((?:[^"\\]|\\.)*)"', re.M)
    yield "| Subcommand and options | What it does |"
    yield "|---|---|"
    for comment, name, about in told.findall(text):
        usage = " ".join(line.strip()[2:].strip() for line in comment.splitlines())
        what = re.split(r": lotbook |\\n", about)[0]
        usage = usage.replace(ROUNDING, "[ROUNDING]").replace(ACCOUNTS, "ACCOUNTS").replace("|", "\\|")
        yield "| %s | %s |" % (usage, what[0].lower() + what[1:])
    yield "| `ACCOUNTS` | stands for `%s` |" % ACCOUNTS
    yield "| `ROUNDING` | stands for `%s` |" % ROUNDING[1:-1]


# ---- the map from rules to definitions

# Parts of pages and modules of definitions that belong together though no comment of the module
# says so. Where a comment is written anew, the part is named there, and goes from here.
ALSO = (
    ("RULES.md, Numbers", "lot_num Sum"),
    ("RULES.md, Texts of numbers", "lot_num AmountText"),
    ("RULES.md, Days", "lot_base Day"),
    ("RULES.md, Names", "lot_base Name, lot_base Text"),
    ("RULES.md, Commands", "lot_command Currencies, lot_command Sayable"),
    ("RULES.md, Inventory", "lot_cost LotKey, lot_book Leg, lot_book Holding"),
    ("RULES.md, Opening numbers", "lot_book OpeningNumber, lot_book Openings"),
    ("RULES.md, Cost specification", "lot_cost CostSpec"),
    ("RULES.md, Reduce or augment", "lot_booking Booking"),
    ("RULES.md, Methods", "lot_booking Method"),
    ("RULES.md, Method orders", "lot_booking OpeningOrder"),
    ("RULES.md, Refusals of a posting with braces", "lot_booking Booking"),
    ("RULES.md, Legs", "lot_booking Choice, lot_book Booking"),
    ("RULES.md, Weight", "lot_book Balance"),
    ("RULES.md, Balance and fill", "lot_book Balance"),
    ("RULES.md, Gain", "lot_book Sale"),
    ("RULES.md, Prices", "lot_walk Prices"),
    ("RULES.md, Keys and repeats", "lot_book Facts, lot_book Step, lot_completion Form"),
    ("RULES.md, The rounding account", "lot_rounding Nearest, lot_rounding Rounding, lot_rounding Asked"),
    ("RULES.md, The rounding account", "lot_completion Rates, lot_completion Completion"),
    ("RULES.md, The rounding account", "lot_completion Crumbs, lot_completion Form, lot_completion Turn"),
    ("RULES.md, Limits", "lot_command Currencies, lot_book Refusals, lot_table Cell"),
    ("RULES.md, Limits", "lot_read Line, lot_import File, lot_report Written"),
    ("RULES.md, Out of memory", "lot_check Answer"),
    ("RULES.md, The program", "lot_check Answer, lot_check Way, lot_input Text, lot_input Rows"),
    ("RULES.md, The program", "lot_args Program, lot_args Words, lot_args Options"),
    ("RULES.md, The program", "lot_audit Judge, lot_verify Verify"),
    ("RULES.md, All codes", "lot_store Apply, lot_store Create, lot_migrate Migrate"),
    ("RULES.md, All codes", "lot_verify Fault"),
    ("FORMATS.md, Lines", "lot_read Line"),
    ("FORMATS.md, Forms", "lot_read Text"),
    ("FORMATS.md, Tokens", "lot_read Meaning"),
    ("FORMATS.md, Canonical text", "lot_read Text"),
    ("FORMATS.md, Replies", "lot_report Printed"),
    ("FORMATS.md, Faults", "lot_stream FaultLine, lot_cli Says"),
    ("FORMATS.md, Holdings", "lot_walk Holdings"),
    ("FORMATS.md, Gains", "lot_walk Gains"),
    ("FORMATS.md, Tables for a spreadsheet", "lot_csv Shares"),
    ("FORMATS.md, Tables", "lot_table Rows, lot_table Call"),
    ("PROMISES.md, The headline", "lot_store Session, lot_store Run"),
    ("PROMISES.md, Safe and total", "lot_store Walk, lot_book_report Show"),
    ("PROMISES.md, Migration", "lot_migrate First"),
)
PAGE_NAMED = re.compile(r"docs/(\w+\.md), ([^()]*?)(?=\)|; docs/)")


def parts_of_pages():
    """The parts that definitions may belong to: page and heading, in the order of the pages."""
    found = OrderedDict()
    for page in ("RULES.md", "FORMATS.md", "PROMISES.md"):
        for heading in re.findall(r"^##+ (.*)$", (ROOT / "docs" / page).read_text(), re.M):
            found[page, heading] = []
    return found


def definitions_by_part(below):
    """For each part of the pages the modules of definitions whose comments name it."""
    found, modules = parts_of_pages(), []
    for name in below:
        for path in sorted((CRATES / name / "specs").rglob("*.antt")):
            modules.append("%s %s" % (name, path.stem))
            said = re.sub(r"\n *--", "", path.read_text())
            for page, parts in PAGE_NAMED.findall(said):
                for part in re.split(r"[,;] ", parts):
                    found.setdefault((page, part.strip()), []).append(modules[-1])
    for place, names in ALSO:
        if tuple(place.split(", ", 1)) not in found or not set(names.split(", ")) <= set(modules):
            sys.exit("pages: %s, or one of %s, isn't there" % (place, names))
        found[tuple(place.split(", ", 1))] += names.split(", ")
    order = {module: at for at, module in enumerate(modules)}
    return {place: sorted(set(names), key=order.get) for place, names in found.items()}


def rule_map(below):
    """The table of the parts of pages and their definitions."""
    by_part = definitions_by_part(below)
    yield "| Part | Definitions |"
    yield "|---|---|"
    for page, part in parts_of_pages():
        crates = OrderedDict()
        for module in by_part[page, part]:
            crates.setdefault(module.split()[0], []).append(module.split()[1])
        if crates:
            file = "" if page == "RULES.md" else page
            link = "[%s](%s#%s)" % (part, file, part.lower().replace(" ", "-"))
            link += " of " + page if file else ""
            said = ["`%s` %s" % (name, quoted(words)) for name, words in crates.items()]
            for cell in cells(said):
                yield "| %s | %s |" % (link, cell)


def cells(said):
    """These joined to one cell of a table, or to several where it were too long."""
    cell = ""
    for it in said:
        if cell and len(cell) + len(it) + 2 > LONGEST_CELL:
            yield cell
            cell = ""
        cell += "; " + it if cell else it
    yield cell


def between(text, name, lines):
    """The text of a page with these lines between its markers of that name."""
    begin, end = "<!-- pages.py: %s -->\n" % name, "<!-- pages.py: end -->\n"
    at = text.index(begin) + len(begin)
    return text[:at] + "\n" + "\n".join(lines) + "\n\n" + text[text.index(end, at) :]


def whole_run():
    """What the last run of all that is tested came to."""
    kept = ROOT / "bench/whole.json"
    if not kept.exists():
        yield "`./test whole` hasn't been run from end to end."
        return
    ran = json.loads(kept.read_text())
    place = "commit %s" % ran["commit"] + (", with changes" if ran["changed"] else "")
    yield "`./test whole` on %s, at %s: %d passed, %d failed." % (ran["date"], place, ran["passed"], ran["failed"])


def generated():
    """Each page that is written here, or in part, as it has to be."""
    below = stands_on()
    crates = OrderedDict((name, Crate(name)) for name in below)
    architecture = (ROOT / "docs/ARCHITECTURE.md").read_text()
    architecture = between(architecture, "crates", crate_table(crates, below))
    architecture = between(architecture, "scripts", scripts())
    proved = between((ROOT / "docs/PROVED.md").read_text(), "headline", headline())
    rules = between((ROOT / "docs/RULES.md").read_text(), "limits", limits())
    rules = between(rules, "words", words())
    rules = between(rules, "codes", codes())
    rules = between(rules, "map", rule_map(below))
    research = between((ROOT / "docs/RESEARCH.md").read_text(), "headline", headline())
    research = between(research, "sizes", sizes(below))
    research = between(research, "prover", prover_time(below))
    research = between(research, "whole", whole_run())
    return OrderedDict(
        [
            ("docs/CALLS.md", "\n".join(calls(crates))),
            ("docs/DEFINITIONS.md", "\n".join(definitions(crates))),
            ("docs/ARCHITECTURE.md", architecture),
            ("docs/RULES.md", rules),
            ("docs/PROVED.md", proved),
            ("docs/RESEARCH.md", research),
            *subcommands.files([(code, "%s: %s" % (name, brief)) for code, name, brief, _ in all_codes()]).items(),
        ]
    )


# ---- limits, and codes that are compared

# What is limited, with `%s` for the number (`%d` for that of a year); what is beyond it; the
# constant of the code, with its module where others have one of that name, and the word of the
# definitions.
LIMITS = (
    (
        "below %s: the absolute mantissa of units and totals",
        "`N3` in a text, `I1` in an inventory, `L11` in a book, `L12` for a residual",
        "`Units::LIMIT`, `units_limit`",
    ),
    (
        "below %s: the mantissa of a rate",
        "`N3` in a text, `B5` for a whole cost",
        "`Rate::LIMIT`, `rate_limit`",
    ),
    (
        "%s: the absolute mantissa of a wide number",
        "`P1 Range` of a report",
        "`Wide::GREATEST`, `greatest_wide`",
    ),
    ("%s decimals of a number that aren't zero", "`N2 TooManyDecimals`", "a number, `one`"),
    ("years 1 to %d", "`M4 BadDay`", "those of `jiff`, `last_year`"),
    ("%s bytes in an account", "`M1 BadAccount`", "`MAX_ACCOUNT`, `longest_account`"),
    ("%s bytes in a commodity", "`M2 BadCommodity`", "`MAX_COMMODITY`, `longest_commodity`"),
    ("%s bytes in a label, at least 1", "`M3 BadLabel`", "`MAX_LABEL`, `longest_label`"),
    ("%s bytes in a note", "`M5 BadNote`", "`MAX_NOTE` and `LONGEST_NOTE`, `longest_note`"),
    ("%s postings in a transaction", "`L8 TooManyPostings`", "`MOST_POSTINGS`, `most_postings`"),
    ("%s lots of one commodity in one account", "`L15 TooManyLots`", "`MOST_LOTS`, `most_lots`"),
    ("%s currencies in an opening", "`X2 Syntax`", "`MOST_CURRENCIES`, `most_currencies`"),
    ("%s entries in a book", "`L16 BookFull`", "`MOST_ENTRIES`, `most_entries`"),
    (
        "%s bytes in a line of text, its line end not counted",
        "`X7 LineTooLong`",
        "`LONGEST_LINE`, `longest_line`",
    ),
    ("%s rows in a broker file", "`C3 TooManyRows`", "`MOST_ROWS`, `most_rows`"),
    ("%s bytes of input", "`K2 TooLong`", "`LONGEST` of `input`, `longest_input`"),
    ("%s calls of `read` on one input", "`K1 Read`", "`CALLS` of `input`"),
    (
        "%s for a number or a place in the tables",
        "`S4 Device`; no command comes to so many",
        "32 bits, `IsOrdinal` and `IsPlace`",
    ),
    (
        "%s for an opening number in the tables",
        "`S4 Device`; no command comes to so many",
        "`OpeningNumber::LIMIT`, `IsOpeningNumber`",
    ),
    (
        "1 to %s ASCII letters, digits, `.`, `_` or `-` in a batch",
        "`U2 BadValue`",
        "`MAX_BATCH`, `longest_batch`",
    ),
    ("1 to %s for the value of `--from`", "`U1 Usage`", "`GREATEST_START`, `greatest_start`"),
    ("0 to %s for the value of `--decimals`", "`U1 Usage`", "`most_decimals`"),
    ("%s bytes in the name of a book's file", "`fault open`", "`LONGEST_NAME` of `files`"),
    (
        "%s bytes in a line of a reply, a fault, the holdings or the gains, its line end counted",
        "doesn't occur",
        "`LONGEST` of `line`, `longest_written`",
    ),
)
NAMED = re.compile(r"`([A-Za-z_:]+)`(?: of `(\w+)`)?")


def number(said):
    """A number as code or a definition writes it: `10 ^ 18`, `1 << 63`, `2 ^ 64 - 1`, `1_000`."""
    match = re.fullmatch(r"(\d+)(?: (\^|<<) (\d+))?( - 1)?", said.replace("_", "").strip())
    first, sign, second, less = match.groups()
    value = int(first)
    if sign:
        value = value ** int(second) if sign == "^" else value << int(second)
    return value - 1 if less else value


def words_with_values():
    """The words of the definitions that are numbers; of a bound the greatest number within it."""
    found = {}
    for path in CRATES.glob("*/specs/*.antt"):
        text = path.read_text()
        for name, said in re.findall(r"^(\w+) = (\d[\d^ -]*)$", text, re.M):
            found.setdefault(name, set()).add(number(said))
        for name, said in re.findall(r"^(Is\w+) n = .*\bn < (\d+ \^ \d+)\)?$", text, re.M):
            found.setdefault(name, set()).add(number(said) - 1)
    return found


def constants():
    """The constants of the code that are numbers: by name the stem of the file and the value."""
    found = {}
    for path in CRATES.glob("*/src/**/*.rt"):
        if path.relative_to(CRATES).parts[0] not in TEST_CRATES:
            text = path.read_text()
            for name, said in re.findall(r"const (\w+): \w+ = (\d[\d_]*(?: << \d+)?);", text):
                found.setdefault(name, []).append((path.stem, number(said)))
    return found


def values_of(name, of, words, named):
    """The values of a limit's word or constant; `of` is the module that has it, or nothing."""
    owner, _, short = name.rpartition("::")
    stem = of or re.sub(r"(?<=[a-z])(?=[A-Z])", "_", owner).lower()
    values = {value for file, value in named.get(short, ()) if stem in ("", file)}
    values |= words.get(short, set())
    if name == "OpeningNumber::LIMIT":  # numbers stay below it
        return {value - 1 for value in values}
    if name == "one":  # the decimals of the scale
        return {len(str(value)) - 1 for value in values}
    return values


def number_of(names, words, named):
    """The number that the constants and the words of a limit have in common."""
    values = [values_of(name, of, words, named) for name, of in NAMED.findall(names)]
    values = [found for found in values if found]
    if not values or any(len(found | values[0]) != 1 for found in values):
        sys.exit("pages: %s have no number in common: %s" % (names, values))
    return values[0].pop()


def shown(value):
    """A number as a page shows it: `10^18`, `2,000,000,000`."""
    zeros = len(str(value)) - 1
    return "10^%d" % zeros if zeros > 15 and value == 10**zeros else "{:,}".format(value)


def limits():
    """The table of limits, with the numbers of the constants and of the words."""
    words, named = words_with_values(), constants()
    yield "| Limit | Beyond it | Constant, word |"
    yield "|---|---|---|"
    for said, beyond, names in LIMITS:
        value = number_of(names, words, named)
        said = said.replace("%s", shown(value)).replace("%d", str(value))
        yield "| %s | %s | %s |" % (said, beyond, names)


def wrong_codes():
    """The codes that lot_explain names otherwise than the definitions of printed lines do, or than
    a page does, or that only one of the two has. Those of numbers, names and inventories are never
    printed, and those of words by the program alone."""
    said = {code: name for code, name, _, _ in explained()}
    printed = {}
    for path in CRATES.glob("*/specs/*.antt"):
        for text in re.findall(r'"([^"]*)"', path.read_text()):
            for code, name in re.findall(r"\b([A-Z]\d+) ([A-Z]\w+)", text):
                printed.setdefault(code, set()).add(name)
        for letter, number, name in re.findall(r'codes "([A-Z])" \+\+ codes "(\d+) ([A-Z]\w+)"', path.read_text()):
            printed.setdefault(letter + number, set()).add(name)
    for code in sorted(set(said) | set(printed)):
        if code[0] not in "NMIU" and {said.get(code)} != printed.get(code):
            yield "%s is %s, not %s" % (code, sorted(printed.get(code, ())), said.get(code))
    for path in sorted(ROOT.glob("docs/*.md")):
        said_there = re.findall(r"`([A-Z]\d+) ([A-Z]\w+)", path.read_text())
        said_there += [(a + b, name) for a, b, name in re.findall(r"`([A-Z])` (\d+) `([A-Z]\w+)", path.read_text())]
        for code, name in said_there:
            if said.get(code) != name:
                yield "%s of %s is %s" % (code, path.name, name)


# ---- the call


def check_all():
    for page, wanted in generated().items():
        path = ROOT / page
        is_same = path.exists() and path.read_text() == wanted
        tally.check("what %s takes from the sources" % page, "" if is_same else "run tools/pages.py")
    tally.check("the codes of lot_explain, of the definitions and of the pages", "; ".join(wrong_codes()))
    tally.end()


def main(words):
    if words == ["--check"]:
        check_all()
    elif not words:
        for page, text in generated().items():
            (ROOT / page).write_text(text)
    else:
        sys.exit("pages: it is called as tools/pages.py or as tools/pages.py --check")


if __name__ == "__main__":
    main(sys.argv[1:])
