"""What a file of the project declares and imports, and the names that it says.

`tools/unused` and `tools/names` read the project with it. It compares names and works out no
scopes.
"""
import re
from dataclasses import dataclass, field

# ---- names in a text

# antt: a name; a chain of names joined by dots, and a dot before it; comments and quoted texts
LETTERS = r'[^\s(){}.;,@"«»]'
NAME = rf"(?:«[^»]*»|{LETTERS}+)"
CHAIN = re.compile(rf"(\.?)({NAME}(?:\.{NAME})*)")
ANTT_NOISE = re.compile(rf'(?<!{LETTERS})--[^\n]*|\{{-.*?-\}}|"(?:\\.|[^"\\\n])*"', re.S)

# Rattle: a name that is no field; comments and quoted texts; a `mod` line; where a clause of a
# contract begins; an attribute's list of what tactics use or open
WORD = re.compile(r"(?:(?<![\w.])|(?<=\.\.))[A-Za-z_]\w*")
CODE_NOISE = re.compile(r"//[^\n]*|/\*.*?\*/|\"(?:\\.|[^\"\\])*\"|'(?:\\.|[^'\\\n])'", re.S)
MOD_LINE = re.compile(r"^[ \t]*(?:pub(?:\([^)\n]*\))?[ \t]+)?mod[ \t]+\S+$", re.M)
CLAUSE = re.compile(r"\b(?:requires|ensures|ghost)\b[^{};]*\{")
TACTIC_LIST = re.compile(r"\b(?:using|unfolding)\s*\(([^()]*)\)")


def blanked(text, pattern):
    """The text with blanks for what the pattern matches, so that the rest stays in its place."""
    return pattern.sub(lambda found: re.sub(r"[^\n]", " ", found[0]), text)


def chains_in(text):
    """The chains of names in antt text, each a tuple. One behind a bracket's dot is a field, and
    left out."""
    found = CHAIN.findall(text)
    return {tuple(re.findall(NAME, chain)) for dot, chain in found if not dot}


def names_in(chains):
    """The names that chains say: `x.name` says x alone, since what stands behind the dot is a field
    of x or stands in the module x."""
    names = {chain[0] for chain in chains}
    for name in list(names):
        if name.startswith("◌") or name.endswith("◌"):  # a section, with one side left open: `◌+ 1`
            names.update(name.split("◌"))
    if names & {"do", "←"}:  # these stand for two operators that the text does not show
        names.update((">>=", ">>"))
    return names


def says(names, name):
    """Whether the names have this one: whole, or each part of an operator such as `◌+◌`."""
    parts = [part for part in name.split("◌") if part]
    return name in names or bool(parts) and all(part in names for part in parts)


def contracts_in(text):
    """The text of all the contracts of a Rattle file."""
    contracts, at = [], 0
    for clause in CLAUSE.finditer(text):
        if clause.start() >= at:  # else it is a word in the clause before
            at = closing_brace(text, clause.end())
            contracts.append(text[clause.end() : at])
    return "\n".join(contracts)


def tactic_chains(text, crate):
    """The chains of names that the attributes of a Rattle file give to tactics: in the file of the
    crate a, `using(crate::proofs::L::x)` gives `Rattle.a.proofs.L.x`."""
    paths = [path.strip() for found in TACTIC_LIST.findall(text) for path in found.split(",")]
    return {("Rattle", *re.sub(r"^crate\b", crate, path).split("::")) for path in paths if path}


def closing_brace(text, start):
    """The place of the brace that closes the one right before START, or the end of the text."""
    depth = 1
    for brace in re.compile(r"[{}]").finditer(text, start):
        depth += 1 if brace[0] == "{" else -1
        if depth == 0:
            return brace.start()
    return len(text)


# ---- imports

# traits whose methods are called without the trait's name
IO_TRAITS = {f"std::io::{name}" for name in ("BufRead", "Read", "Seek", "Write")}

# `use M.{a, b as c}`, `use M as x`, `use M`; `use a::B;`, `use a::{B, C};`
USE = re.compile(
    r"^[ \t]*(?P<marks>(?:(?:ghost|unfoldable|pub(?:\([^)\n]*\))?)[ \t]+)*)use[ \t]+"
    r"(?P<path>[^\s{;]+?)"
    r"(?:(?:\.|::)\{(?P<names>[^}]*)\}|[ \t]+as[ \t]+(?P<alias>[^\s;]+))?"
    r"(?=[\s;]|\Z);?[ \t]*\n?",
    re.M,
)


@dataclass(eq=False)
class Import:
    """One name that a `use` line brings in.

    name        as the file says it
    module      the module that has it; for a module, its own path
    item        its name in the module; None for a module
    is_rattle   whether it is of Rattle, and not of antt
    line        the number of the line that it stands on
    use         the match of the whole `use` line
    segment     which of the segments between the line's commas it is
    """

    name: str
    module: str
    item: str
    is_rattle: bool
    line: int
    use: re.Match
    segment: int = 0

    @property
    def is_public(self):
        return "pub" in self.use["marks"]

    @property
    def is_io_trait(self):
        return "::".join([self.module, *filter(None, [self.item])]) in IO_TRAITS


def read_imports(text, is_code):
    """The imports of a file whose comments are blanked."""
    imports = []
    for use in USE.finditer(text):
        is_rattle = is_code and "ghost" not in use["marks"]
        if use["names"] is None:
            imports.append(read_module(text, use, is_rattle))
        else:
            imports += read_items(text, use, is_rattle)
    return imports


def read_module(text, use, is_rattle):
    """The import of a `use` line without braces."""
    path = use["path"].removeprefix("package.")
    name = use["alias"] or re.split(r"\.|::", path)[-1]
    return Import(name, path, None, is_rattle, line_at(text, use.start("path")), use)


def read_items(text, use, is_rattle):
    """The imports of a `use` line with braces."""
    dot, at = "::" if is_rattle else ".", use.start("names")
    path = use["path"].removeprefix("package.")
    for segment, words in enumerate(use["names"].split(",")):
        line = line_at(text, at + len(words) - len(words.lstrip()))
        at += len(words) + 1
        inner, _, alias = " ".join(words.split()).partition(" as ")
        if inner:
            whole = path if is_rattle and inner == "self" else path + dot + inner
            module, _, item = whole.rpartition(dot)
            yield Import(alias or item, module, item, is_rattle, line, use, segment)


def line_at(text, place):
    return text.count("\n", 0, place) + 1


def complete_paths(imports):
    """Completes each path that begins with a name which another `use` line brings in."""
    antt = [one for one in imports if not one.is_rattle]
    paths = {one.name: f"{one.module}.{one.item}" for one in antt if one.item}
    paths.update({one.name: one.module for one in antt if not one.item})
    for one in antt:
        head, dot, rest = one.module.partition(".")
        if head in paths and head != one.name:
            one.module = paths[head] + dot + rest


# ---- declarations

MARKS = r"\s*(?:(?:pattern|abbrev|unfoldable|pub|axiom)\s+)*"
SIGNATURE = re.compile(rf"{MARKS}(?P<name>{NAME})\s*(?:\{{[^}}]*\}}\s*)?:\s")
TYPE = re.compile(rf"{MARKS}(?P<kind>record|data|ruleset)\s+(?P<name>{NAME})")
BLOCK = re.compile(rf"{MARKS}(?:module|mutual)\b")
FIXITY = re.compile(r"\s*infix[lr]?\s")
OPEN = re.compile(r"\s*open\s")
CONSTRUCTORS = re.compile(rf"\s*(?P<names>(?:{NAME}\s+)+?):\s")


@dataclass(eq=False)
class Declaration:
    """A definition, a law or a type.

    source        the file that it stands in
    text          its signature, clauses and helpers, and the heads of the blocks around it
    constructors  those of a data type
    """

    source: "Source"
    name: str
    line: int
    text: str
    constructors: list = field(default_factory=list)


def read_declarations(source, lines, heads=""):
    """The declarations of a block and of the blocks in it, and the text that belongs to none.

    LINES are pairs of a number and a text that is not blank. HEADS is the text of the heads of the
    blocks around this one: what they say, each declaration in them says.
    """
    found, stray, current = [], "", None
    for item in items_of(lines):
        text = text_of(item)
        declared = TYPE.match(text) or SIGNATURE.match(text)
        if FIXITY.match(text):
            continue
        if BLOCK.match(text):
            head, body = head_and_body(item)
            inner, outside = read_declarations(source, body, heads + text_of(head))
            found, stray, current = found + inner, stray + outside, None
        elif declared:
            current = Declaration(source, declared["name"], item[0][0], heads + text)
            if declared.groupdict().get("kind") == "data":
                current.constructors = constructors_of(item)
            found.append(current)
        elif current and not OPEN.match(text):  # a clause, `unfolding`, or a closing bracket
            current.text += text
        else:
            stray += heads + text
    return found, stray


def items_of(lines):
    """The items of a block: each begins at the block's indentation and goes on to the next."""
    items = []
    for number, line in lines:
        if not items or indentation(line) <= indentation(lines[0][1]):
            items.append([])
        items[-1].append((number, line))
    return items


def indentation(line):
    return len(line) - len(line.lstrip())


def text_of(lines):
    return "".join(line + "\n" for _, line in lines)


def head_and_body(item):
    """The head of an item, which ends with `where` or is the line `mutual`, and the lines below."""
    for at, (_, line) in enumerate(item, 1):
        if line.split()[-1] in ("where", "mutual"):
            return item[:at], item[at:]
    return item, []


def constructors_of(item):
    """The names of the constructors of a data type."""
    names = []
    for one in items_of(head_and_body(item)[1]):
        found = CONSTRUCTORS.match(text_of(one))
        names += found["names"].split() if found else []
    return names


# ---- files

# what a person writes of a function's proof, in the function's folder below proofs/. Any other file
# of proofs/ has laws
PROOFS = {"Answers.antt", "Invariants.antt", "Proof.antt"}


class Source:
    """A file of the project.

    path          from the project's root
    kind          `code` (.rt), `proof` (a file of PROOFS), or, for a file with declarations, what
                  these are: `definition` or `law`
    text          the text as it stands
    imports       what its `use` lines bring in
    modules       the antt modules that it imports: the name in this file -> the path
    body          the text without comments and `use` lines
    chains        what it says in antt; in a Rattle file the contracts and attributes do that
    declarations  in a file with declarations
    named         name -> declaration; a constructor's name leads to its type
    outside       what it says in antt outside of declarations
    versions      the file after each edit of must-fail/ that changes it
    quoted        the `use` lines that edits take from the file
    """

    def __init__(self, path, kind, text):
        self.path, self.kind, self.text = path, kind, text
        self.versions, self.quoted = [], ""
        clear = blanked(text, CODE_NOISE if kind == "code" else ANTT_NOISE)
        self.imports = read_imports(clear, kind == "code")
        complete_paths(self.imports)
        self.modules = {one.name: one.module for one in self.imports
                        if one.item is None and not one.is_rattle}
        self.body = blanked(blanked(clear, USE), MOD_LINE)
        self.chains = chains_in(contracts_in(self.body) if kind == "code" else self.body)
        if kind == "code":
            self.chains |= tactic_chains(self.body, path.split("/")[1])
        self.declarations, self.outside, self.named = [], self.chains, {}
        if kind in ("definition", "law"):
            self.declare()

    def declare(self):
        """Takes the declarations out of the body."""
        lines = [(at, one) for at, one in enumerate(self.body.split("\n"), 1) if one.strip()]
        self.declarations, stray = read_declarations(self, lines)
        self.outside = chains_in(stray)
        self.named = {name: one for one in self.declarations for name in one.constructors}
        self.named.update({one.name: one for one in self.declarations})

    def unused_imports(self):
        """The imports that neither the file nor an edit of it says outside of `use` lines."""
        chains = self.chains.union(chains_in(self.quoted), *(one.chains for one in self.versions))
        names = names_in(chains)
        heads = {chain[0] for chain in chains if len(chain) > 1}
        bodies = [self.body, self.quoted] + [one.body for one in self.versions]
        words = set(WORD.findall("\n".join(bodies)))
        for one in self.imports:
            if one.is_public or one.name == "*" or self.begins_a_path(one):
                continue
            if one.is_rattle:
                used = one.name in words or one.is_io_trait
            elif one.item is None:
                used = one.name in heads
            else:
                used = says(names, one.name)
            if not used:
                yield one

    def begins_a_path(self, one):
        """Whether the path of another `use` line begins with the name of this import."""
        dot = "::" if one.is_rattle else "."
        return any(other.use["path"].split(dot)[0] == one.name for other in self.imports
                   if other.use is not one.use and other.is_rattle == one.is_rattle)
