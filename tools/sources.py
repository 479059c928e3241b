"""Reads the sources below crates/ as declarations. The scripts of tools/ import it; it is no command.

Of antt it knows no more than the layout that `rt fmt` makes, and takes this for granted:

- A file is its first comment, its header and its declarations, one after another. The header is the lines that begin
  with `use`, `mod` or `infix`, perhaps behind `pub`; an import that is broken goes on up to its closing brace.
- `module _ (..) where` opens a section, and what stands in it is indented by two spaces more. The section's parameters
  belong to the statement of each declaration in it.
- A declaration begins at the indentation of its section, with `record` or `data` or with a name and a colon, behind its
  marks (`unfoldable`, `abbrev`, `pub`). What is indented deeper goes on with it, a `where` block and its blank lines
  too, and so does a line at its own indentation that begins nothing else: its `unfolding` line, its clauses.
- A comment is whole lines. It belongs to the declaration right below it; a line of `-- ----` heads a part of the file.
- A file uses no name of its own above the declaration of that name, and declares no name twice.

Of Rattle it knows `use` items, structs, enums, traits and the heads of functions, laid out by `rt fmt` too: what a brace at the
left edge closes, and what ends in the brace that opens a body, which stands alone on its line below a contract. A clause of
a contract begins its line, with `requires` or `ensures`, a name where it has one, and a brace.

A statement stands in specs/, or in a file right in proofs/ that is called as one of specs/, perhaps with `Lemmas` behind:
what stood there and rests on theorems. Each other file of proofs/ is reasons alone.

A declaration among the statements is a DEFINITION or a LAW. A definition is a `record`, a `data`, what is marked `abbrev` or
`unfoldable`, and any other whose result is data. All else is a law: its type is a sentence, and its value a proof. Data
are `Type`, the kit's ℕ, Bool, List and Unit, each type of ours that takes no values, as `Slots`, `Call A` or a struct, and
products of these. A type that takes values, as `Fits k S n a o`, is a sentence about them.
"""
import io
import pathlib
import re
import subprocess
import tarfile
from dataclasses import dataclass, field

ROOT = pathlib.Path(__file__).resolve().parent.parent
DEFINITION, LAW = "definition", "law"
SUFFIXES = {"src": ".rt", "specs": ".antt", "proofs": ".antt"}


class Wrong(Exception):
    """A sentence on something in the sources that cannot be followed."""


# ---- the files


def is_source(path):
    parts = path.split("/")
    return len(parts) > 3 and parts[0] == "crates" and path.endswith(SUFFIXES.get(parts[2], "/"))


def working_tree():
    """The sources as they stand: the text of each file, by its path from the root."""
    paths = sorted(path.relative_to(ROOT).as_posix() for path in ROOT.glob("crates/*/*/**/*") if path.is_file())
    return {path: (ROOT / path).read_text(encoding="utf-8") for path in paths if is_source(path)}


def of_commit(name):
    """The sources of a commit, read without checking anything out."""
    ran = subprocess.run(["git", "-C", ROOT, "archive", name, "crates"], capture_output=True)
    if ran.returncode != 0:
        raise Wrong(f"git has no sources under the name '{name}': {ran.stderr.decode().strip()}")
    with tarfile.open(fileobj=io.BytesIO(ran.stdout)) as archive:
        files = [member for member in archive.getmembers() if member.isfile() and is_source(member.name)]
        return {member.name: archive.extractfile(member).read().decode() for member in files}


# ---- what is read


@dataclass(eq=False)
class Declaration:
    path: str
    name: str
    form: str  # abbrev, unfoldable, record, data or plain; of Rattle struct or enum
    public: bool
    comment: list  # the lines right above it, without their marks
    sections: list  # the opening lines of each section that it stands in, the outermost first
    first: int  # the number of its first line
    lines: list  # its lines, as the source has them
    head: int  # how many of these are its signature; of a record, a data type, a struct and an enum all are
    inside: list  # the names that it brings beside its own: constructors, variants
    kind: str = DEFINITION

    @property
    def last(self):
        return self.first + len(self.lines) - 1

    @property
    def openings(self):
        return [line for section in self.sections for line in section]

    @property
    def statement(self):
        """Its signature, behind the openings of its sections."""
        return "\n".join([*self.openings, *self.lines[: self.head]])

    @property
    def body(self):
        """Its value or its proof, with the `unfolding` line."""
        return "\n".join(self.lines[self.head :])

    @property
    def text(self):
        return f"{self.statement}\n{self.body}"

    def names(self):
        """Its names, as they are written where they are used: `◌when◌` also as `when`."""
        parts = [part for name in [self.name, *self.inside] if "◌" in name for part in name.split("◌") if part]
        return [self.name, *self.inside, *parts]


@dataclass(eq=False)
class Function:
    path: str
    name: str  # with its crate, module and type: tree::Tree::take
    public: bool
    signature: str
    contract: str  # its requires and ensures


@dataclass(eq=False)
class Import:
    module: str
    names: dict  # what is imported, by the name that it has here; nothing where it is the module itself
    alias: str


@dataclass(eq=False)
class Source:
    path: str
    comment: list
    modules: list  # the names of its `mod` lines
    imports: list
    declarations: list
    functions: list = field(default_factory=list)
    methods: list = field(default_factory=list)  # of its public traits, which declare them with their contracts
    aliases: list = field(default_factory=list)  # the other names of types that a source gives

    @property
    def crate(self):
        return self.path.split("/")[1]

    @property
    def place(self):
        """src, specs or proofs."""
        return self.path.split("/")[2]


# ---- comments and imports


def is_comment(line):
    return line.lstrip().startswith(("--", "//"))


def comment_text(lines):
    """A comment without its marks, and without a line that heads a part of the file."""
    return [re.sub(r"^\s*(?:--|//) ?", "", line) for line in lines if not re.match(r"\s*(?:--|//) ---- ", line)]


def comment_above(lines, start):
    """The comment right above a line, or above the attributes that stand there."""
    while start > 0 and lines[start - 1].lstrip().startswith("#["):
        start -= 1
    first = start
    while first > 0 and is_comment(lines[first - 1]):
        first -= 1
    return comment_text(lines[first:start])


def first_comment(lines):
    stop = next((number for number, line in enumerate(lines) if not is_comment(line)), len(lines))
    return comment_text(lines[:stop])


IMPORT = re.compile(r"(?:pub |ghost )*use (?P<module>[^\s{;]+?)(?:\.\{(?P<names>.*)\}| as (?P<alias>\S+?))?;?")


def divided_at_commas(text):
    """The parts of a list between braces, where what stands in inner braces is no division."""
    parts, depth = [""], 0
    for sign in text:
        depth += {"{": 1, "}": -1}.get(sign, 0)
        if sign == "," and depth == 0:
            parts.append("")
        else:
            parts[-1] += sign
    return [part.strip() for part in parts if part.strip()]


def read_import(path, line):
    """What an import of antt brings, also where it stands in a file of Rattle, behind `ghost`."""
    found = IMPORT.fullmatch(line)
    if found is None:
        raise Wrong(f"{path}: tools/sources.py does not know this form of an import: {line}")
    names = {}
    for item in divided_at_commas(found["names"] or ""):
        name, _, alias = item.partition(" as ")
        names[alias or name] = name
    return Import(found["module"], names, found["alias"] or "")


def read_uses(text):
    """What a `use` of Rattle brings: an import for each path, as `answers::Refusal`, with the name that it has here."""
    path, brace, rest = text.partition("{")
    if brace:
        inner = divided_at_commas(rest.strip().removesuffix("}"))
        return [one for part in inner for one in read_uses(path + part)]
    path, _, alias = path.strip().partition(" as ")
    return [Import(path.removesuffix("::self"), {}, alias)]


def items(lines):
    """The imports of a file, each in one line: one that is broken goes on up to its closing brace."""
    waiting = ""
    for line in lines:
        if waiting or re.match(r"(?:pub |ghost )*use ", line):
            waiting = f"{waiting} {line.strip()}".strip()
            if waiting.count("{") == waiting.count("}"):
                yield re.sub(r"\{ | ?,? \}", lambda found: found[0].strip(" ,"), waiting)
                waiting = ""


def read_item(path, line):
    if path.endswith(".rt") and not line.startswith("ghost "):
        return read_uses(line.removeprefix("pub ").removeprefix("use ").removesuffix(";"))
    return [read_import(path, line)]


def source_of(path, lines, declarations):
    modules = [match[1] for match in map(re.compile(r"(?:pub )?mod (\w+)").match, lines) if match]
    imports = [one for line in items(lines) for one in read_item(path, line)]
    return Source(path, first_comment(lines), modules, imports, declarations)


# ---- a file of antt


HEADER = re.compile(r"(?:pub )?(?:use|mod) |infix[lr]? |open ")
MARKS = r"(?P<marks>(?:(?:unfoldable|abbrev|opaque|axiom|pub) )*)"
SIGNATURE = re.compile(MARKS + r"(?P<name>[^\s(){}]+)(?: \{[^}:]*\})? :(?: |$)")
TYPE = re.compile(MARKS + r"(?P<form>record|data) (?P<name>[^\s(){}]+)")


def indent_of(line):
    return len(line) - len(line.lstrip(" "))


def beginning(line):
    """How a declaration begins on this line, or None."""
    return TYPE.match(line.strip()) or SIGNATURE.match(line.strip())


def blocks(lines, first, stop, depth):
    """The blocks of these lines: each begins at this indentation and goes on with what is blank or deeper."""
    starts = [number for number in range(first, stop) if lines[number] and indent_of(lines[number]) <= depth]
    for start, end in zip(starts, [*starts[1:], stop]):
        while not lines[end - 1]:
            end -= 1
        yield start, end


def opening_end(path, lines, start):
    """The line after the opening of the section that begins here; a long opening has several lines."""
    for number in range(start, len(lines)):
        if lines[number].endswith(" where"):
            return number + 1
    raise Wrong(f"{path}, line {start + 1}: this section has no `where`")


def spans(path, lines, first, stop, sections):
    """Where each declaration begins and ends, and the openings of the sections that it stands in."""
    found, broken = [], False
    for start, end in blocks(lines, first, stop, 2 * len(sections)):
        if broken and lines[start].strip() == "}":
            broken = False
        elif lines[start].lstrip().startswith("module "):
            inner = opening_end(path, lines, start)
            found += spans(path, lines, inner, end, [*sections, lines[start:inner]])
        elif is_comment(lines[start]) or HEADER.match(lines[start].lstrip()):
            broken = lines[end - 1].endswith(("{", ","))
        elif beginning(lines[start]):
            found.append((start, end, sections))
        elif found and found[-1][2] == sections:
            found[-1] = (found[-1][0], end, sections)
        else:
            raise Wrong(f"{path}, line {start + 1}: tools/sources.py knows nothing that begins so: {lines[start].strip()}")
    return found


def form_of(begun):
    if "form" in begun.groupdict():
        return begun["form"]
    return next((mark for mark in ("abbrev", "unfoldable") if mark in begun["marks"]), "plain")


def signature_length(lines, form):
    """How many of a declaration's lines are its signature: those before the next at its own indentation."""
    if form in ("record", "data"):
        return len(lines)
    depth = indent_of(lines[0])
    return next((count for count, line in enumerate(lines) if count and line and indent_of(line) == depth), len(lines))


def constructors(lines):
    """The names that a data type declares: they stand one step in, before a colon."""
    inner = [line for line in lines[1:] if indent_of(line) == indent_of(lines[0]) + 2 and not is_comment(line)]
    return [name for line in inner if " : " in line for name in line.split(" : ")[0].split()]


def parts(one):
    """The names of a record's parts, which stand behind the record's name: `outcome .answer`."""
    return [name for name in constructors(one.lines) if name != "pub"] if one.form == "record" else []


def antt_declaration(path, lines, start, end, sections):
    begun, own = beginning(lines[start]), lines[start:end]
    form = form_of(begun)
    return Declaration(
        path=path,
        name=begun["name"],
        form=form,
        public="pub " in begun["marks"],
        comment=comment_above(lines, start),
        sections=sections,
        first=start + 1,
        lines=own,
        head=signature_length(own, form),
        inside=constructors(own) if form == "data" else [],
    )


def read_antt(path, text):
    lines = text.splitlines()
    return source_of(path, lines, [antt_declaration(path, lines, *span) for span in spans(path, lines, 0, len(lines), [])])


# ---- a file of Rattle


ALIAS = re.compile(r"(?:pub(?:\(crate\))? )?type (\w+) =")
RATTLE_TYPE = re.compile(r"(?P<pub>pub )?(?:pub\(crate\) )?(?P<form>struct|enum|trait) (?P<name>\w+)")
FUNCTION = re.compile(r'(?P<indent> *)(?P<pub>pub )?(?:pub\(crate\) )?(?:const )?(?:unsafe )?(?:extern "C" )?fn (?P<name>\w+)')
CLAUSE = re.compile(r"\s*(?:requires|ensures|ghost)\b")
CONSTANT = re.compile(r" *(?:pub(?:\(crate\))? )?const (?P<name>\w+)")


@dataclass(eq=False)
class Piece:
    """A function or a constant in whole: its name with its module and type, and where it stands in its file."""

    name: str
    file: str
    begin: int
    end: int
    text: str
    public: bool
    of_trait: bool  # a method of an impl of a public trait, of its file or of the library


IMPL = re.compile(r"impl(?:<.*?>)? (?:(?P<trait>\w+)(?:<(?P<of>.*)>)? for )?(?P<type>\w+)")
# the traits of the library whose impls here state what each gives (`from_gives`)
OF_LIBRARY = ("From", "TryFrom")


def owner_of(line):
    """The name that rt gives the functions of a block before theirs: its type with a capital, and behind it the trait and what the trait is of, where there is one."""
    begun = IMPL.match(line)
    words = [begun["type"], begun["trait"] or "", *re.findall(r"\w+", begun["of"] or "")] if begun else []
    return "".join(word[:1].upper() + word[1:] for word in words)


def only_declared(lines, start):
    """Whether the function that begins there has no body: a trait declares it, and it ends with a semicolon."""
    for line in lines[start:]:
        if line.endswith(("{", ";")):
            return line.endswith(";")
    return False


def pieces(file, text):
    """The functions and the constants of a source of a crate: each function ends at the brace of its own indentation."""
    module = "::".join([*module_of(f"crates/of/{file}")[1:], ""])
    functions, constants, owner, of_trait, at, begun = [], [], "", False, 0, None
    lines, traits = text.splitlines(), [*OF_LIBRARY, *re.findall(r"^pub trait (\w+)", text, re.M)]
    for number, line in enumerate(text.splitlines(keepends=True)):
        bare = line.rstrip("\n")
        if begun is None:
            function, constant = FUNCTION.match(line), CONSTANT.match(line)
            if function and not only_declared(lines, number):
                begun = (functions, module + owner + function["name"], at, function["indent"] + "}", bool(function["pub"]))
            elif constant:
                begun = (constants, module + owner + constant["name"], at, None, False)
            elif owner_of(bare):
                owner, of_trait = owner_of(bare) + "::", IMPL.match(bare)["trait"] in traits
            elif bare == "}":
                owner, of_trait = "", False
        at += len(line)
        if begun and (bare == begun[3] or (begun[3] is None and bare.endswith(";"))):
            into, name, begin, _, public = begun
            into.append(Piece(name, file, begin, at, text[begin:at], public, of_trait))
            begun = None
    return functions, constants


def module_of(path):
    """crates/rounding/src/pages.rt is the module rounding::pages, and a crate's lib.rt is the crate."""
    _, crate, _, *inner = path.removesuffix(".rt").split("/")
    return [crate, *(part for part in inner if part not in ("lib", "main"))]


def rattle_type(path, lines, start):
    """A struct or an enum ends at the brace at the left edge, if it does not end on its first line."""
    begun = RATTLE_TYPE.match(lines[start])
    stop = start if lines[start].endswith(("}", ";")) else lines.index("}", start)
    own = lines[start : stop + 1]
    variants = re.findall(r"^    (\w+)", "\n".join(own), re.M) if begun["form"] == "enum" else []
    return Declaration(
        path=path,
        name=begun["name"],
        form=begun["form"],
        public=bool(begun["pub"]),
        comment=comment_above(lines, start),
        sections=[],
        first=start + 1,
        lines=own,
        head=len(own),
        inside=variants,
    )


def rattle_function(path, lines, start, owner):
    """A function's head ends at the brace that opens its body: it stands alone below a contract, else it ends a line."""
    begun, stop = FUNCTION.match(lines[start].strip()), start
    alone, told = " " * indent_of(lines[start]) + "{", False
    while not (lines[stop] == alone or (lines[stop].endswith("{") and not told)):
        stop += 1
        told = told or bool(CLAUSE.match(lines[stop]))
    head = "\n".join(lines[start : stop + 1]).removesuffix("{").rstrip()
    return function_of(path, head, [*owner, begun["name"]], bool(begun["pub"]))


def trait_method(path, lines, start, trait):
    """A method that a trait declares ends at the semicolon behind its contract. It is as public as the trait."""
    begun, stop = FUNCTION.match(lines[start].strip()), start
    while not lines[stop].endswith(";"):
        stop += 1
    head = "\n".join(lines[start : stop + 1]).removesuffix(";")
    return function_of(path, head, [trait["name"], begun["name"]], bool(trait["pub"]))


def function_of(path, head, name, public):
    signature, *contract = re.split(r"\n(?=\s*(?:requires|ensures)\b)", head)
    return Function(path, "::".join([*module_of(path), *name]), public, signature, "\n".join(contract))


def read_rattle(path, text):
    lines, owner, trait = text.splitlines(), [], None
    source = source_of(path, lines, [])
    for start, line in enumerate(lines):
        if owner_of(line):
            owner = [owner_of(line)]
        elif line == "}":
            owner, trait = [], None
        elif ALIAS.match(line):
            source.aliases.append(ALIAS.match(line)[1])
        elif RATTLE_TYPE.match(line):
            source.declarations.append(rattle_type(path, lines, start))
            trait = RATTLE_TYPE.match(line) if RATTLE_TYPE.match(line)["form"] == "trait" else None
        elif FUNCTION.match(line.strip()) and not only_declared(lines, start):
            function = rattle_function(path, lines, start, [trait["name"]] if trait else owner)
            function.public = function.public or bool(trait and trait["pub"])
            source.functions.append(function)
        elif FUNCTION.match(line.strip()) and trait:
            source.methods.append(trait_method(path, lines, start, trait))
    return source


# ---- the words of a text


NAME = r"[^\s(){}.;,@\"«»]+"
WORD = re.compile(rf"--(?=\s|$).*|\.{NAME}|«(?P<escaped>[^»]*)»|(?P<word>{NAME}(?:\.{NAME})*|[(){{}}])")


def words_of(text):
    """The names and brackets of a text of antt, without comments and without projections as `.answer`."""
    found = [match["word"] or match["escaped"] for match in WORD.finditer(text)]
    return [word for word in found if word]


def divided(words, mark):
    """The words between the marks that stand outside of all brackets."""
    parts, depth = [[]], 0
    for word in words:
        depth += {"(": 1, "{": 1, ")": -1, "}": -1}.get(word, 0)
        if word == mark and depth == 0:
            parts.append([])
        else:
            parts[-1].append(word)
    return parts


# ---- data


KIT_DATA = {"Type", "ℕ", "Bool", "List", "Unit"}
RELATIONS = ("≡", "↔", "≤", "<", "⊎")
TYPES_ONLY = r"(?: [({][^(){}:]+ : Type \w+[)}])*"
OPENING = re.compile(rf"module _{TYPES_ONLY} where")
TYPE_OF_DATA = re.compile(rf"{MARKS}(?:record |data )?\S+{TYPES_ONLY} : (?:Type \w+ → )*Type \w+(?: where)?")


def takes_no_values(one):
    """Whether a declaration is a type, and its parameters and those of its sections are types too."""
    if one.form in ("struct", "enum"):
        return True
    signature = one.lines[0] if one.form in ("record", "data") else " ".join(one.lines[: one.head])
    openings = [" ".join(section).strip() for section in one.sections]
    return bool(TYPE_OF_DATA.fullmatch(signature.strip())) and all(OPENING.fullmatch(opening) for opening in openings)


def is_data(visible, words):
    """Whether a type, given by its words, is one of data; what stands before an arrow does not matter."""
    result = divided(words, "→")[-1]
    factors = divided(result, "×")
    if len(factors) > 1:
        return all(is_data(visible, factor) for factor in factors)
    if any(len(divided(result, relation)) > 1 for relation in RELATIONS):
        return False
    if result[0] == "(":
        return is_data(visible, divided(result[1:-1], ":")[-1])
    declared = visible.get(result[0])
    return result[0] in KIT_DATA or (declared is not None and takes_no_values(declared))


# ---- what each name means


class Crates:
    """All sources, and what each name in src/ and specs/ means. A name of the kit means nothing here."""

    def __init__(self, texts):
        readers = {"src": read_rattle, "specs": read_antt, "proofs": read_antt}
        self.texts = texts
        self.crates = {path.split("/")[1] for path in texts}
        self.sources = {path: readers[path.split("/")[2]](path, text) for path, text in texts.items()}
        self.types = {(*module_of(one.path), one.name): one for one in self.declared_in("src")}
        self.aliases = {(*module_of(one.path), name) for one in self.of("src") for name in one.aliases}
        self.headers = {source.path: self.header(source) for source in [*self.of("src"), *self.stated()]}
        for one in self.statements():
            one.kind = self.kind_of(one)

    def of(self, place):
        return [source for source in self.sources.values() if source.place == place]

    def declared_in(self, place):
        return [one for source in self.of(place) for one in source.declarations]

    def is_stated(self, source):
        crate, place, *inner = source.path.split("/")[1:]
        if place != "proofs" or len(inner) != 1:
            return place == "specs"
        stem = inner[0].removesuffix(".antt")
        beside = [f"crates/{crate}/specs/{name}.antt" for name in (stem, stem.removesuffix("Lemmas"))]
        return stem != "Lib" and any(path in self.sources for path in beside)

    def stated(self):
        """The files of statements."""
        return [source for source in self.sources.values() if self.is_stated(source)]

    def statements(self):
        """Their declarations."""
        return [one for source in self.stated() for one in source.declarations]

    def laws(self):
        return [one for one in self.statements() if one.kind == LAW]

    def libraries(self):
        """The sources in src/ of the crates that are libraries."""
        return [source for source in self.of("src") if f"crates/{source.crate}/src/lib.rt" in self.sources]

    # -- imports

    def is_ours(self, module):
        """Whether a module is of a crate of this repository and written there: what Rattle makes of contracts is not."""
        parts = module.split(".")
        return parts[0] == "Rattle" and parts[1] in self.crates and parts[2:4] != ["specs", "contracts"]

    def behind(self, module):
        """The declarations behind the name of a module of specs/, or None. Rattle.slots.specs.Sets is a file;
        Rattle.tree.specs.declared.Tree is made from a struct or an enum."""
        if not self.is_ours(module):
            return None
        _, crate, *parts = module.split(".")
        if parts[:1] == ["proofs"]:
            source = self.sources.get(f"crates/{crate}/{'/'.join(parts)}.antt")
            return source.declarations if source else None
        if parts[:2] == ["specs", "declared"]:
            found = self.types.get((crate, *(part for part in parts[2:] if part != "TheVariants")))
            return [found] if found else None
        source = self.sources.get(f"crates/{crate}/{'/'.join(parts)}.antt")
        return source.declarations if source and source.place == "specs" else None

    def from_antt(self, source, one):
        """What an import of antt brings: each name with its declaration, or with None where it is the kit's."""
        if not self.is_ours(one.module):
            return {name: None for name in one.names}
        declarations = self.behind(one.module)
        # below proofs/ what Rattle makes of the code has modules too, as the goals
        is_strict = source.place != "proofs" or one.module.split(".")[2] == "specs"
        if declarations is None and is_strict:
            raise Wrong(f"{source.path} imports {one.module}, and specs/ has no such file, nor src/ such a type")
        known = {name: declared for declared in declarations or [] for name in [declared.name, *declared.inside]}
        for name in one.names.values():
            if name not in known and is_strict:
                raise Wrong(f"{source.path} imports '{name}' from {one.module}, which declares no such name")
        if one.names:
            return {here: known.get(there) for here, there in one.names.items()}
        called = one.alias or one.module.rpartition(".")[2]
        return {f"{called}.{name}": declared for name, declared in known.items()}

    def from_rattle(self, source, one):
        """The type of ours that a `use` of Rattle brings, if it brings one."""
        parts = tuple(source.crate if part == "crate" else part for part in one.module.split("::"))
        found = self.types.get((source.crate, *parts)) or self.types.get(parts)
        of_ours = any(path.startswith(f"crates/{parts[0]}/") for path in self.sources)
        is_alias = (source.crate, *parts) in self.aliases or parts in self.aliases
        if found is None and not is_alias and of_ours and re.match(r"[A-Z][a-z]", parts[-1]):
            raise Wrong(f"{source.path} uses {one.module}, and there is no such struct, enum or trait")
        return {one.alias or parts[-1]: found} if found else {}

    def header(self, source):
        """What each name means that a file imports; an operator's name, as `◌≡◌`, is also known by its parts."""
        known = {}
        for one in source.imports:
            is_path = source.place == "src" and not re.match(r"[\w.]+\.", one.module)
            brought = self.from_rattle(source, one) if is_path else self.from_antt(source, one)
            for name, declared in brought.items():
                for spelled in [name, *(filter(None, name.split("◌")) if "◌" in name else [])]:
                    known[spelled] = declared or known.get(spelled)
        return known

    # -- what a text names

    def visible(self, one):
        """What each name means that a declaration can use: those imported, and those that stand above it. The types of
        a file of Rattle see each other, and name no variant."""
        source = self.sources[one.path]
        if source.place == "src":
            return self.headers[one.path] | {other.name: other for other in source.declarations}
        above = [other for other in source.declarations if other.first < one.first]
        return self.headers[one.path] | {name: other for other in above for name in other.names()}

    def named_by(self, one, text):
        """The declarations that a text of this one names. A variable that is spelled like a declaration counts for
        it: rather one too many than one too few."""
        visible = self.visible(one)
        words = words_of(text) if one.path.endswith(".antt") else re.findall(r"\w+", re.sub("//.*", "", text))
        heads = [word if word in visible else word.partition(".")[0] for word in words]
        return [visible[head] for head in dict.fromkeys(heads) if visible.get(head) not in (None, one)]

    # -- kinds

    def kind_of(self, one):
        if one.form != "plain":
            return DEFINITION
        words = words_of("\n".join(one.lines[: one.head]))
        return DEFINITION if is_data(self.visible(one), words[words.index(":") + 1 :]) else LAW
