#!/usr/bin/env python3
"""believed.py: counts, by crate, the definitions that a reader must believe: those that the contracts of public functions
name, and those that these name.

Of these it counts those behind the main theorem, which the clauses of `Share::run` name; those behind what else the
program promises; and those for laws, authenticators and peers of tests alone, with how many of these are a law's
statement and nothing else: a clause of a `laws_of_` function is such a name, and no other definition has it. A
statement is proved, and no promise stands on it; a reader of the law has to read it all the same. --list prints all by
file, --run those of the first count. --check fails where docs/DEFINITIONS.md does not name one beside its file, or
names a file or a definition that is not there, where that page or README.md says other counts, and where a file of
which nothing need be believed does not begin by saying so, or another one does. The page has two parts, of which the
first names the definitions behind `Share::run` and no other. In each, under a heading with a crate's name, it has an
item for each file, or for several, whose names it begins with, as `Number.antt`. Of the text behind them names count
where a colon, or sections in parentheses and a colon, are behind them. With `, whole:` behind its files an item names
all definitions.

Public is what lib.rt exports; of an inner crate, whose lib.rt says `An inner crate of NAME:`, what the lib.rt of NAME
exports on. Of it count the clauses of functions, of types' `pub` methods and of traits' methods, and the ghost members
of traits, types and impls; of an `impl Model` the Value, and the view where a caller can look at a field. (Else the
view is how the proofs come from fields to values, and a caller meets values alone: they are what the clauses of the
calls say, whatever the view. The invariant is proved of each value that is made, and no caller is told of it.) The
files are read by the layout that `rt fmt` gives them, without the parts for tests alone. A variable that has the name
of a definition counts as the definition.
"""
import pathlib
import re
import sys

ROOT = pathlib.Path(__file__).resolve().parent.parent
PAGE = ROOT / "docs" / "DEFINITIONS.md"
MARK = "-- For the proofs; nothing here need be believed."
NAME = r"[^\W\d][\w'-]*"
IMPORT = re.compile(r"^\s*(pub |ghost )?use Rattle\.(\w+)\.specs\.([\w.]+)\.\{(.*)\};?\s*$", re.M)
BEGIN = re.compile(rf"(?:(?:abbrev|unfoldable) pub|pub data|pub record|pub) (?!(?:use|mod|data|record) )({NAME})")
ITEM = re.compile(r"^(?=#|(?:pub(?:\([a-z ]+\))? )?(?:unsafe |const )*(?:fn|impl|trait|struct|enum|const|type|mod|use|ghost)\b)", re.M)
NOISE = re.compile(r"//[^\n]*|\"(?:[^\"\\]|\\.)*\"|b?'(?:[^'\\\n]|\\[^'\n]+|\\')'", re.S)
EXPORT = re.compile(r"^pub use ([\w:]+)::(\{[^}]*\}|\w+);", re.M)
INNER = re.compile(r"^//! An inner crate of (\w+):", re.M)
CLAUSES = re.compile(r"^    (?:requires|ensures|ghost)\b.*?(?=^\{|\Z)", re.M | re.S)
CLAUSE_NAME = re.compile(r"^    (?:requires|ensures|ghost)\*?(?: \w+:?)?(?= \{)", re.M)


def imports_of(text):
    """A name here: whether it is handed on, and its crate, file and name there."""
    imports = {}
    for kind, crate, file, names in IMPORT.findall(text):
        for there, _, here in (name.strip().partition(" as ") for name in names.split(",")):
            imports[here or there] = kind == "pub ", (crate, file.replace(".", "/"), there)
    return imports


def used_in(text):
    """The names that a text uses, but for those behind a dot and those of fields that are declared or set."""
    text = re.sub(rf"(?:[{{;]\s*|^\s+pub ){NAME}(?= [=:]\s)", " ; ", text, flags=re.M)
    return set(re.findall(rf"(?<![\w'.-]){NAME}", text))


class Specs:
    """A file of specs/: what it imports, the text of each definition, and of which definition a constructor is."""

    def __init__(self, path):
        text = re.sub(r"--.*", "", path.read_text(encoding="utf-8"))
        self.imports, self.texts, module, name = imports_of(text), {}, "", None
        for line in text.splitlines(keepends=True):
            inner = module and line.startswith("  ")
            begins = BEGIN.match(line[2:] if inner else line)
            if begins:
                name, module = begins.group(1), module if inner else ""
                self.texts[name] = module
            elif line.startswith("module "):
                name, module = None, line
            if name:
                self.texts[name] += line
        self.constructors = {maker: name for name, text in self.texts.items() if f"pub data {name}" in text
                             for maker in re.findall(rf"^ +({NAME}) : ", text, re.M)}


def read_specs():
    """By crate and file, in the order of crates.txt."""
    crates = re.findall(r"^(\w+)[^:\n]*:", (ROOT / "crates.txt").read_text(encoding="utf-8"), re.M)
    folders = [(crate, ROOT / "crates" / crate / "specs") for crate in crates]
    return {(crate, path.relative_to(folder).with_suffix("").as_posix()): Specs(path)
            for crate, folder in folders for path in sorted(folder.glob("**/*.antt"))}


def find(specs, crate, file, name):
    """The definition that a name means in a file. None outside the crates."""
    at = specs.get((crate, file))
    if at and at.imports.get(name, [False])[0]:
        return find(specs, *at.imports[name][1])
    return (crate, file, at.constructors.get(name, name)) if at and name in {*at.texts, *at.constructors} else None


def used_by(specs, one):
    """The definitions that one names, without itself."""
    crate, file, name = one
    at = specs[crate, file]
    return {find(specs, *at.imports.get(it, (False, (crate, file, it)))[1]) for it in used_in(at.texts[name])} - {None, one}


def followed(specs, roots):
    """All definitions to which some lead."""
    reached, waiting = set(), set(roots)
    while waiting:
        one = waiting.pop()
        reached.add(one)
        waiting |= used_by(specs, one) - reached
    return reached


def all_roots(specs, wanted=lambda module, part: True):
    """The definitions that public clauses of all crates name, of the wanted functions and ghost members."""
    return {root for name in {crate for crate, _ in specs} for root in Crate(name).roots(specs, wanted)} - {None}


def statements(specs, reached):
    """Those of the reached definitions that clauses of laws name, and nothing else does."""
    used = {it for one in reached for it in used_by(specs, one)}
    return all_roots(specs, is_law) & reached - used - all_roots(specs, lambda module, part: not is_law(module, part))


def items_of(text):
    """The items of a file or a block, but for those that are compiled for tests alone."""
    items = ITEM.split(text)[1:]
    return [item for before, item in zip([""] + items, items) if not before.startswith("#[cfg(test)]")]


def members_of(item):
    """The members of an impl, a trait or a type. (A ghost field ends where the next field begins.)"""
    members = items_of(re.sub(r"^    ", "", item.partition("{\n")[2], flags=re.M))
    return [re.split(r"\n(?=(?:pub )?\w+: )", member)[0] if "ghost" in member[:9] else member for member in members]


def clauses_of(member):
    """The clauses of a function, without their names, or what a ghost member says."""
    if re.match(r"(?:pub )?ghost (?!use)", member):
        return re.sub(r"^(?:pub )?ghost \w+", "", member)
    return CLAUSE_NAME.sub("", "".join(CLAUSES.findall(member)))


def head_of(item):
    """The words with which an item begins, without type arguments and the paths before names."""
    head = re.split(r"\{|\bwhere\b", item)[0].replace("->", "")
    while re.search(r"<[^<>]*>", head):
        head = re.sub(r"<[^<>]*>", "", head)
    return [word.rpartition("::")[2] for word in re.findall(r"[\w:]+", head)]


def exports_of(library):
    """The names that a lib.rt exports, each with the module or the crate that it is from."""
    return {(home, name) for home, names in EXPORT.findall(library) for name in re.findall(r"\w+", names)}


def shown_by_outer(name):
    """Of an inner crate the names that the crate around it exports on. None of any other crate."""
    library = ROOT / "crates" / name / "src" / "lib.rt"
    outer = INNER.search(library.read_text(encoding="utf-8")) if library.exists() else None
    exports = exports_of((ROOT / "crates" / outer.group(1) / "src" / "lib.rt").read_text(encoding="utf-8")) if outer else set()
    return {item for home, item in exports if home == name} if outer else None


class Crate:
    """A crate's sources by module, and of each type and trait that it declares whether it is public."""

    def __init__(self, name):
        self.shown = shown_by_outer(name)
        source = ROOT / "crates" / name / "src"
        self.files = {"::".join(path.relative_to(source).with_suffix("").parts): NOISE.sub(" ", path.read_text(encoding="utf-8"))
                      for path in sorted(source.glob("**/*.rt"))}
        library = "".join(items_of(self.files.get("lib", "")))
        self.open = set(re.findall(r"^pub mod (\w+);", library, re.M)) | {"lib"}
        self.exported = exports_of(library)
        declared = re.compile(r"^(pub )?(?:pub\([a-z ]+\) )?(?:struct|enum|trait) (\w+)", re.M)
        types = [(name, shown != "" and self.is_public(module, name)) for module, text in self.files.items() for shown, name in declared.findall(text)]
        self.types = dict(sorted(types))
        struct = re.compile(r"^pub struct (\w+)[^;{]*(?:\{.*?^\}|\{\}|;)", re.M | re.S)
        self.closed = {found.group(1) for text in self.files.values() for found in struct.finditer(text) if not re.search(r"\bpub (?!struct|ghost)", found.group())}

    def is_public(self, module, name):
        if self.shown is not None:
            return name in self.shown
        return (module, name) in self.exported or module in self.open

    def public_parts(self, module, item):
        """The functions and the ghost members of an item that callers see."""
        head = head_of(item)
        kind = next((word for word in head if word in ("fn", "impl", "trait", "struct", "enum")), None)
        name = head[head.index(kind) + 1] if kind else None
        if kind == "fn":
            return [item] if item.startswith("pub ") and self.is_public(module, name) else []
        if kind != "impl":
            return members_of(item) if self.types.get(name) else []
        model = r"ghost Value\b" if head[-1] in self.closed else r"ghost (Value|view)\b"
        shown = model if "Model" in head else "" if "for" in head else r"pub (const )?fn\b"
        return [it for it in members_of(item) if re.match(shown, it) and all(self.types.get(word, True) for word in head[1:])]

    def roots(self, specs, wanted=lambda module, part: True):
        """The definitions that the public clauses name, of the wanted functions and ghost members."""
        for module, text in self.files.items():
            imports = imports_of(text)
            parts = [part for item in items_of(text) for part in self.public_parts(module, item) if wanted(module, part)]
            yield from (find(specs, *imports[name][1]) for part in parts for name in used_in(clauses_of(part)) & set(imports))


def behind_run(specs):
    """The definitions behind the clauses of `Share::run`."""
    text = Crate("smb_engine").files["share"]
    imports = imports_of(text)
    found = [it for item in items_of(text) for it in members_of(item) if re.match(r"pub fn run\b", it)]
    return followed(specs, {find(specs, *imports[name][1]) for it in found for name in used_in(clauses_of(it)) & set(imports)} - {None})


def is_law(module, part):
    """Whether a function or ghost member is one whose clauses are laws."""
    return bool(re.match(r"pub (const )?fn laws_of_", part))


def is_of_program(module, part):
    """Whether a function or ghost member is no law, and not of the peers and clocks in memory, which serve tests."""
    return not is_law(module, part) and not module.startswith("memory_")


def behind_program(specs):
    """The definitions behind what else the program is promised to do: its shares, peers, listings and configurations. A login by NTLM
    and a journal's are counted with the laws."""
    names = {crate for crate, _ in specs} - {"smb_ntlm", "smb_journal"}
    roots = {root for name in names for root in Crate(name).roots(specs, is_of_program)}
    return followed(specs, roots - {None})


def items_on(page):
    """The items of the page: whether they are in its first part, the crate of the heading above, the files, whether they are named whole,
    and the text."""
    for number, part in enumerate(re.split(r"^## ", page, flags=re.M)[1:]):
        for section in re.split(r"^### ", part, flags=re.M)[1:]:
            crate, _, text = section.partition("\n")
            for item in re.split(r"^- (?=`[\w/]+\.antt`)", text, flags=re.M)[1:]:
                head = re.match(r"((?:`[\w/]+\.antt`,\s+)*`[\w/]+\.antt`)(?:\s+\([^)]*\))?(,\s+whole:)?", item)
                files = re.findall(r"`([\w/]+)\.antt`", head.group(1))
                yield number == 0, crate.strip(), files, bool(head.group(2)), item.partition("\n\n")[0]


def told(specs):
    """The definitions that the page names in its first part, those that it names in the other, those that it names one by one, and what it
    names that is not there."""
    named, quoted_there, wrong = {True: set(), False: set()}, set(), []
    for is_first, crate, files, whole, text in items_on(PAGE.read_text(encoding="utf-8")):
        wrong += [f"{crate}/specs/{file}.antt is not there" for file in files if (crate, file) not in specs]
        there = {(crate, file, name) for file in files if (crate, file) in specs for name in specs[crate, file].texts}
        rows = re.findall(rf"((?:`{NAME}`,\s+)*`{NAME}`)(?:\s+\([^)]*\))?:\s", text)
        quoted = {name for row in rows for name in re.findall(rf"`({NAME})`", row)}
        places = ", ".join(f"{crate}/specs/{file}.antt" for file in files)
        wrong += [f"`{name}` is not in {places}" for name in sorted(quoted - {it[2] for it in there})]
        quoted_there |= {one for one in there if one[2] in quoted}
        named[is_first] |= there if whole else {one for one in there if one[2] in quoted}
    return named[True], named[False], quoted_there, wrong


def by_file(specs, some):
    """Lines: a file, and those of its definitions that are among some."""
    for (crate, file), at in specs.items():
        names = " ".join(name for name in at.texts if (crate, file, name) in some)
        if names:
            yield f"{crate}/specs/{file}.antt: {names}"


def marks(specs, reached):
    """What is wrong with the first lines of files: they say whether a file serves the proofs alone."""
    for crate, file in specs:
        if file == "Lib":
            continue
        path = ROOT / "crates" / crate / "specs" / f"{file}.antt"
        marked = path.read_text(encoding="utf-8").startswith(MARK)
        believed = any(it[:2] == (crate, file) for it in reached)
        if marked == believed:
            yield f"{crate}/specs/{file}.antt {'begins with' if marked else 'does not begin with'} `{MARK}`"


def counts(specs, reached):
    """A table: by crate how many definitions are believed; of these how many behind `Share::run`, how many more behind what else the
    program promises, and how many for laws, authenticators and peers of tests alone, and of these how many are statements of laws; and
    how many are not, and how many there are."""
    run = behind_run(specs) & reached
    program = behind_program(specs) & reached - run
    stated = statements(specs, reached)
    yield f"{'':18}" + "".join(f"{it:>10}" for it in ("believed", "run", "program", "laws", "stated", "not", "all"))
    for crate in [*dict.fromkeys(crate for crate, _ in specs), "all"]:
        some, of_run, of_program, of_laws = (sum(crate in (it[0], "all") for it in them) for them in (reached, run, program, stated))
        every = sum(len(at.texts) for key, at in specs.items() if crate in (key[0], "all"))
        row = (some, of_run, of_program, some - of_run - of_program, of_laws, every - some, every)
        yield f"{crate:18}" + "".join(f"{it:10}" for it in row)


def miscounted(run, program, laws):
    """The pages that do not say these counts, with the words that are wanted."""
    wanted = {PAGE: f"{run} definitions behind the main theorem, {program} more behind what else the program promises, and {laws} more behind laws",
              ROOT / "README.md": f"of {run} definitions"}
    return [f"{page.relative_to(ROOT)}: does not say: {words}" for page, words in wanted.items()
            if words not in " ".join(page.read_text(encoding="utf-8").split())]


def main(words):
    specs = read_specs()
    reached = followed(specs, all_roots(specs))
    if words == ["--check"]:
        first, others, quoted, wrong = told(specs)
        run = behind_run(specs)
        wrong += [f"does not name in its first part, of {line}" for line in by_file(specs, run - first)]
        wrong += [f"names in its first part, though `Share::run` does not lead to it, of {line}" for line in by_file(specs, first - run)]
        wrong += [f"does not name, of {line}" for line in by_file(specs, reached - first - others)]
        wrong += [f"names, though it need not be believed, of {line}" for line in by_file(specs, quoted - reached)]
        program = behind_program(specs) & reached - run
        counted = miscounted(len(run & reached), len(program), len(reached - run - program))
        sys.exit("\n".join([*(f"{PAGE.relative_to(ROOT)}: {it}" for it in wrong), *counted, *marks(specs, reached)]) or None)
    if words not in ([], ["--list"], ["--run"]):
        sys.exit(__doc__)
    if words == ["--run"]:
        reached = behind_run(specs)
    print("\n".join(by_file(specs, reached) if words else counts(specs, reached)))


main(sys.argv[1:])
