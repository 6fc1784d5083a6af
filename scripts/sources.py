"""Reads the sources of all crates into definitions with the names that each of them uses, and into the rows of the commands. `believe` and
`unused` go by the definitions; of the rows `pages` makes tables, and `try-docs` runs their examples."""
import collections
import glob
import os
import re

TOP = os.path.dirname(os.path.dirname(os.path.abspath(__file__)))
CRATES = os.path.join(TOP, "crates")

USE = re.compile(r"^\s*((?:pub )?)(?:ghost )?use (Rattle\.[^\s{;]+?)(?:\.\{(.*)\})?(?: as ([^\s;]+))?;?\s*$")
# An import of several files of a crate: `ghost use Rattle.CRATE.specs.{One.{..}, Other.{..}};`.
SEVERAL = re.compile(r"^(\s*ghost use Rattle\.\w+\.(?:specs|proofs)\.)\{(.*)\};$")
WORD = re.compile(r"[^\s(){}\[\];,.]+")
MARKS = r"(?:abbrev |unfoldable |opaque |pub )*"
KIND = re.compile(rf"^{MARKS}(data|record|ruleset) {MARKS}([^\s:(){{}}]+)")
SIGNED = re.compile(rf"^{MARKS}([^\s:(){{}}]+)(?: \{{[^}}]*\}})* ?:(?:\s|$)")
OUTSIDE = ("use ", "pub use ", "infix", "open ", "syntax", "pub mod ", "mod ")
# Calls that are read as definitions, by their clauses: those that the theorem of the program is the contract of.
CALLS = {"maxband_run": ("run", "maxband_main")}
# Files in which the goals of one function are answered, by names that the kit makes.
ANSWERS = {"Answers", "Invariants", "Proof"}

# Where the rows of the commands stand, and what their words and files are.
TABLE, SETTINGS, READERS = (f"{CRATES}/{it}" for it in ("run_commands/src/table.rt", "run_commands/src/settings.rt", "run_inputs/src/reader.rt"))
Word = collections.namedtuple("Word", "name text")
# `words` has a Word for each word behind the command's, in their order; `prints` and `examples` are lines.
Row = collections.namedtuple("Row", "word usage does words puts prints examples")
TEXT = r'"((?:[^"\\]|\\.)*)"'


def read(path):
    """The text of a file, named from the top or by its whole path."""
    with open(os.path.join(TOP, path), encoding="utf-8") as file:
        return file.read()


def needs():
    """The crates in the order of crates.txt, each with those that it names there."""
    lines = [line.split("#")[0].partition(":") for line in read("crates.txt").split("\n")]
    return {name.split()[0]: below.split() for name, _, below in lines if name.strip()}


def imports(line):
    """An import of several files as lines of one each; any other line is itself."""
    found = SEVERAL.match(line)
    return [f"{found[1]}{it};" for it in re.split(r"(?<=\}), ", found[2])] if found else [line]


def without_comments(text):
    return re.sub(r"--.*|//.*", "", text)


def indent(line):
    return len(line) - len(line.lstrip())


def plain(text):
    """A definition without comments, projections of fields, and the names of fields."""
    text = without_comments(text)
    text = re.sub(r"(?<=[\w)}\]'])\.[a-zA-Z_][\w']*(?:\.[a-zA-Z_][\w']*)*", " ", text)
    text = re.sub(r"([{;]\s*)([^\s=;{}]+) = ", r"\1 ", text)
    if text.lstrip().startswith(("record", "pub record")):
        text = re.sub(r"(?m)^(\s+(?:pub )?)([^\s:]+) : ", r"\1 : ", text)
    return text


def names_it(name, words, text):
    """Whether the text names it: an operator by all its parts."""
    if "◌" in name:
        parts = [part for part in name.split("◌") if part]
        return name in words or bool(parts) and all(part in words for part in parts)
    return name in words if WORD.fullmatch(name) else name in text


def comment_before(text, at):
    """The comment lines right above a place of a source."""
    above = re.search(r"((?:^[ \t]*(?://|#\[).*\n)+)\Z", text[:at], re.M)
    return "\n".join(line for line in (above.group(1).split("\n") if above else []) if line.startswith("//"))


class Definition:
    """A definition or a plain type as it stands, with the comment above it; `around` are the heads of the modules that it stands in."""

    def __init__(self, module, name, names, comment, text, around, path, kind):
        self.module, self.name, self.names, self.comment, self.text = module, name, names, comment, text
        self.around, self.path, self.kind = around, path, kind

    @property
    def crate(self):
        return self.module.split(".")[1]

    def lines(self):
        return sum(1 for line in without_comments(self.text).split("\n") if line.strip())

    def place(self):
        return os.path.relpath(self.path, CRATES)


class File:
    """The imports of a file, its definitions, and its first lines, which say what it defines."""

    def __init__(self, module, path):
        self.module, self.path = module, path
        self.imports, self.aliases, self.handed_on, self.definitions = {}, {}, {}, []
        self.said = ""

    def note_import(self, line):
        found = USE.match(line)
        if not found:
            return
        is_public, module, names, alias = found.groups()
        if names is None:
            self.aliases[alias or module.split(".")[-1]] = module
            owner, _, name = module.rpartition(".")
            self.imports.setdefault(alias or name, (owner, name))
            return
        for name in (part.strip() for part in names.split(",")):
            if name:
                there, _, here = name.partition(" as ")
                self.imports[here or there] = (module, there)
                if is_public:
                    self.handed_on[here or there] = (module, there)


class Book:
    """All definitions of specs/ and proofs/, the plain types and constants of src/, the top calls, and what each file imports."""

    def __init__(self, folders=("specs",)):
        self.files, self.definitions, self.types = {}, {}, {}
        for folder in folders:
            for path in sorted(glob.glob(f"{CRATES}/*/{folder}/**/*.antt", recursive=True)):
                self.read_definitions(path, folder)
        for path in sorted(glob.glob(f"{CRATES}/*/src/**/*.rt", recursive=True)):
            self.read_types(path)

    def add(self, definition):
        self.files[definition.module].definitions.append(definition)
        for name in definition.names:
            self.definitions[(definition.module, name)] = definition

    def read_definitions(self, path, folder):
        crate, _, rest = os.path.relpath(path, CRATES).partition(f"/{folder}/")
        module = f"Rattle.{crate}.{folder}." + os.path.splitext(rest)[0].replace("/", ".")
        file = self.files[module] = File(module, path)
        lines = read(path).split("\n")
        for line in lines:
            file.note_import(line)
        said = []
        for line in lines:
            if not line.startswith("--"):
                break
            said.append(line)
        file.said = "\n".join(said)
        self.read_block(file, lines[len(said):], 0, [])

    def read_block(self, file, lines, depth, around):
        """The definitions that begin at this depth; those of a module within it by the same way, with its head."""
        block, names, kind, comment, above = [], [], None, [], []
        at = 0

        def close():
            nonlocal block, names
            if names:
                while block and not block[-1].strip():
                    block.pop()
                text = "\n".join(line[depth:] for line in block)
                self.add(Definition(file.module, names[0], names, "\n".join(comment), text, "\n".join(around), file.path, kind))
            block, names = [], []

        while at < len(lines):
            line = lines[at]
            here = line[depth:] if line[:depth].strip() == "" else line
            at += 1
            if not line.strip():
                above = []
                if names:
                    block.append(line)
                continue
            if here.startswith("--"):
                above = [] if here.startswith("-- ----") else above + [here]
                continue
            if here[0] in " )}]":
                if names:
                    block.append(line)
                    inner = re.match(rf"^\s+{MARKS}([^\s:(){{}}]+)\s*:\s", here)
                    if inner and kind == "data":
                        names.append(inner.group(1))
                continue
            if here.startswith(("module ", "abbrev module ", "mutual")):
                close()
                head = [here]
                while not re.search(r"\bwhere\s*$", head[-1]) and not here.startswith("mutual"):
                    head.append(lines[at])
                    at += 1
                deeper = next((indent(each) for each in lines[at:] if each.strip()), 0)
                inner = []
                while at < len(lines) and (not lines[at].strip() or indent(lines[at]) >= max(deeper, depth + 1)):
                    inner.append(lines[at])
                    at += 1
                self.read_block(file, inner, deeper, around + head)
                above = []
                continue
            if here.startswith(OUTSIDE):
                close()
                above = []
                continue
            begun = KIND.match(here)
            signed = None if begun else SIGNED.match(here)
            if begun or signed:
                close()
                kind, name = (begun.group(1), begun.group(2)) if begun else ("", signed.group(1))
                block, names, comment = [line], [name], above
            elif names:
                block.append(line)
            above = []
        close()

    def read_types(self, path):
        crate, _, rest = os.path.relpath(path, CRATES).partition("/src/")
        text = read(path)
        source = f"Rattle.{crate}.src." + os.path.splitext(rest)[0].replace("/", ".")
        file = self.files[source] = File(source, path)
        for line in text.split("\n"):
            for one in imports(line.strip()):
                file.note_import(one)
        for line in re.findall(r"(?ms)^(?:pub )?use ([^;]+);", text):
            root = line.split("::")[0].strip()
            for used in re.findall(r"\b[A-Z]\w*", line):
                file.imports.setdefault(used, ("type", (crate if root in ("crate", "super", "self") else root, used)))
        found = list(re.finditer(r"(?ms)^(?:pub(?:\([a-z]+\))? )?(struct|enum|trait) (\w+)[^;{]*(?:;|\{[^\n]*\}$|\{.*?^\})", text))
        for each in found:
            file.imports[each.group(2)] = ("type", (crate, each.group(2)))
        for each in found:
            self.add_type(file, crate, os.path.splitext(rest)[0].replace("/", "."), text, each)
        self.add_constants(file, crate, os.path.splitext(rest)[0].replace("/", "."), text)
        for call in CALLS.get(crate, ()):
            head = re.search(rf"(?ms)^pub fn {call}<.*?^\{{", text)
            if head:
                clauses = head.group(0).rstrip("{\n")
                self.add(Definition(source, call, [call], comment_before(text, head.start()), clauses, "", path, "call"))

    def add_type(self, file, crate, place, text, found):
        """A plain type with what it is in contracts, or a trait with its clauses."""
        name = found.group(2)
        module = f"Rattle.{crate}.specs.declared.{place}.{name}"
        model = re.search(r"(?ms)^impl(?:<[^>]*>)? Model for " + name + r"\b.*?^\}", text)
        body = found.group(0) + ("\n\n" + model.group(0) if model else "")
        body = re.sub(r"(?m)^\s*ghost use .*\n", "", body)
        own = self.files[module] = File(module, file.path)
        own.imports, own.aliases = file.imports, file.aliases
        self.types.setdefault(name, {})[crate] = module
        self.add(Definition(module, name, [name], comment_before(text, found.start()), body, "", file.path, "type"))

    def add_constants(self, file, crate, place, text):
        """The constants that specs/ name."""
        module = f"Rattle.{crate}.specs.declared.{place}.TheConstants"
        named = {name for each in self.files.values() for there, name in each.imports.values() if there == module}
        for found in re.finditer(r"(?ms)^pub const ([A-Z_]+): [^\n]*? =\s+(?:[(\[]$.*?^[)\]];$|[(\"].*?[)\"];$)", text):
            if found.group(1) in named:
                own = self.files.setdefault(module, File(module, file.path))
                own.imports, own.aliases = file.imports, file.aliases
                self.add(Definition(module, found.group(1), [found.group(1)], comment_before(text, found.start()), found.group(0), "", file.path, "constant"))

    def find(self, module, name):
        """The definition that an import means, through files that hand it on."""
        if module == "type":
            crate, used = name
            there = self.types.get(used, {})
            return self.definitions.get((there.get(crate) or next(iter(there.values()), ""), used))
        if (module, name) in self.definitions:
            return self.definitions[(module, name)]
        if module in self.files and name in self.files[module].handed_on:
            return self.find(*self.files[module].handed_on[name])
        if ".specs.declared." in module and module.count(".") > 4:
            owner, _, last = module.rpartition(".")
            return self.definitions.get((module, last)) or self.find(owner, last)
        return None

    def is_here(self, module):
        """Whether the module should stand in this repository: what no definition is found of is then an error."""
        parts = module.split(".")
        return len(parts) > 2 and os.path.isdir(os.path.join(CRATES, parts[1])) and parts[2] in ("specs", "proofs")

    def named_in(self, module, text, missing=None):
        """The definitions that a text of this file names. An imported name of this repository that isn't found is missing."""
        file = self.files[module]
        bare = plain(text)
        words = set(WORD.findall(bare))
        if file.path.endswith(".rt"):
            words |= set(re.findall(r"\w+", bare))
        found = [each for each in file.definitions if any(names_it(name, words, bare) for name in each.names)]
        wanted = [target for name, target in file.imports.items() if names_it(name, words, bare)]
        for alias, where in file.aliases.items():
            used = re.findall(r"(?<![\w.])" + re.escape(alias) + r"\.([^\s(){}\[\];,.]+)", text)
            wanted += [(where, name) for name in used]
        for where, name in re.findall(r"(Rattle(?:\.\w+)+)\.([^\s(){}\[\];,.]+)", text):
            wanted.append((where, name))
        for where, name in wanted:
            definition = self.find(where, name)
            if definition:
                found.append(definition)
            elif missing is not None and self.is_here(where) and not self.is_module(where, name):
                missing.add((module, f"{where}.{name}"))
        return found

    def foreign(self, definition):
        """The names of std and of the kit's crates that a definition has, as they are called there."""
        file, bare = self.files[definition.module], plain(definition.around + "\n" + definition.text)
        words = set(WORD.findall(bare))
        if file.path.endswith(".rt"):
            words |= set(re.findall(r"\w+", bare))
        taken = [target for name, target in file.imports.items() if names_it(name, words, bare)]
        return [name for module, name in taken if module.startswith("Rattle.") and not self.is_here(module)]

    def is_module(self, module, name):
        return f"{module}.{name}" in self.files or name == "TheVariants"

    def reached(self, start, missing=None, stops=lambda definition: False):
        """What the definitions use, short of where it stops."""
        seen, waiting = {}, list(start)
        while waiting:
            definition = waiting.pop(0)
            if id(definition) not in seen and not stops(definition):
                seen[id(definition)] = definition
                waiting += self.used_by(definition, missing)
        return list(seen.values())

    def used_by(self, definition, missing=None):
        return self.named_in(definition.module, definition.around + "\n" + definition.text, missing)


# ---- the rows of the commands
def texts(code):
    return [it.replace('\\"', '"').replace("\\\\", "\\") for it in re.findall(TEXT, code)]


def constants(path, kind):
    """The constants of this type: name to code."""
    return dict(re.findall(rf"(?ms)^(?:pub )?const (\w+): {kind} = \((.*?)\);\n", read(path)))


def labels(path):
    """What stands for each kind of word, by the variant of its enumeration."""
    words = {name: Word(*texts(code)) for name, code in constants(path, "Label").items()}
    return {variant: words[name] for variant, name in re.findall(r"\w+::(\w+) => (\w+),", read(path)) if name in words}


def most_bytes():
    """The most bytes of each kind of file."""
    code = read(READERS)
    sizes = {name: int(size.replace("_", "")) for name, size in re.findall(r"const (\w+): u64 = ([\d_]+);", code)}
    found = {}
    for kinds, size in re.findall(r"((?:ReadAs::\w+(?: \| )?)+) => (\w+),", code):
        if size in sizes:
            found.update({kind: sizes[size] for kind in re.findall(r"ReadAs::(\w+)", kinds)})
    return found


def command_rows():
    """All rows, in the order of the help."""
    code = read(TABLE)
    parts, pages = constants(TABLE, "RowParts"), constants(TABLE, "PageParts")
    names = dict(re.findall(r"Usage::(\w+) => row_of\((\w+)\),", code))
    order = re.findall(r"Usage::(\w+),", re.search(r"(?s)const USAGES.*?\];", code)[0])
    files, settings, most = labels(READERS), labels(SETTINGS), most_bytes()
    for usage in order:
        part, page = parts[names[usage]], pages[f"{names[usage]}_PAGE"]
        word, does, put_name = texts(part)
        put, prints, examples = texts(page)
        reads = re.findall(r"ReadAs::(\w+)", part)
        words = [Word(files[it].name, f"{files[it].text}, at most {most[it]} bytes") for it in reads]
        words += [Word(put_name, put)] if put_name else []
        words += [settings[it] for it in re.findall(r"Setting::(\w+)", part)]
        asked = " ".join(["maxband", word, *[it.name for it in words]])
        yield Row(word, asked, does, words, put_name, prints.splitlines(), examples.splitlines())
