"""What the repository's own text says, for the tools that hold it to itself: crates, functions, definitions, fields of `Claims`, must-fail edits, tables."""
import functools
import glob
import os
import re

os.chdir(os.path.join(os.path.dirname(os.path.abspath(__file__)), ".."))


@functools.cache
def read(path):
    with open(path, encoding="utf-8") as file:
        return file.read()


# ---- crates

# The crates of crates.txt in their order, with what each needs.
def needs_of():
    lines = (line.partition("#")[0].partition(":") for line in read("crates.txt").split("\n"))
    return {crate.strip(): needs.split() for crate, colon, needs in lines if colon}


def listed_crates():
    return list(needs_of())


# ---- .rt: functions

# Blanks, line for line, for comments and for what stands between quotes, so that neither is taken for code.
def code_of(text):
    return re.sub(r"//[^\n]*|\"(?:\\.|[^\"\\\n])*\"|'(?:\\.|[^'\\\n])'", lambda found: " " * len(found[0]), text)


# Where the bracket that opens at the place closes.
def closing(text, at):
    pairs = {"(": ")", "{": "}", "[": "]"}
    wanted = []
    for i in range(at, len(text)):
        if text[i] in pairs:
            wanted.append(pairs[text[i]])
        elif wanted and text[i] == wanted[-1]:
            wanted.pop()
            if not wanted:
                return i
    raise ValueError("a bracket that doesn't close")


# What stands between commas, brackets aside.
def parts(text):
    found, depth, from_ = [], 0, 0
    for i, c in enumerate(text + ","):
        depth += (c in "([{") - (c in ")]}")
        if c == "," and depth == 0:
            if text[from_:i].strip():
                found.append(text[from_:i].strip())
            from_ = i + 1
    return found


class Function:
    """A function: `name` with its crate (and type), whether callers outside its crate may name it, whether a trait asks for it, its `bounds`, parameters,
    answer, clauses and text."""

    def __init__(self, crate, path, text, holder, start, at, name, asked):
        self.crate, self.path, self.asked = crate, path, asked
        self.name = f"{crate}::{holder}{name}"
        before = text[start:at]
        self.public = bool(re.search(r"\bpub\b(?!\s*\(\s*(?:crate|super|self)\s*\))|\bextern\b|no_mangle", before))
        opens = text.index("(", at)
        self.bounds = text[at:opens].partition("<")[2]
        closes = closing(text, opens)
        self.parameters = {}
        for part in parts(text[opens + 1 : closes]):
            word, _, kind = part.partition(":")
            lent, word = re.match(r"(&mut |&|)(.*)", word.strip()).groups() if not kind else ("", word)
            word = word.replace("mut ", "").strip()
            self.parameters[word] = kind.strip() or lent + holder[:-2]
        self.clauses = []
        i = closes + 1
        answer = re.compile(r"\s*->\s*((?:(?!\b(?:requires|ensures|ghost|where)\b)(?:\[[^][]*\]|[^{;]))*)").match(text, i)
        self.answer = answer[1].strip() if answer else ""
        i = answer.end() if answer else i
        while True:  # a clause may have a name, and a star
            found = re.compile(r"\s*(?:\b(requires|ensures)\s*(\*\s*)?(?:\w+\s*)?)?(?=[{;])").match(text, i)
            if not found:
                raise ValueError(f"{path}: {name} can't be read")
            if text[found.end()] == ";":
                self.end, self.body = found.end(), ""
                break
            close = closing(text, found.end())
            if not found[1]:
                self.end, self.body = close, text[found.end() : close + 1]
                break
            self.clauses.append((found[1], text[found.end() + 1 : close].strip()))
            i = close + 1
        self.start = start
        self.calls = set(re.findall(r"(\w+)\(", self.body))

    def clause(self, kind):
        return [text for which, text in self.clauses if which == kind]


# The names that a source file has from specs/: (crate, file, name).
@functools.cache
def ghosts(path):
    found = {}
    for crate, file, inner in re.findall(r"^ghost use Rattle\.(\w+)\.specs\.(\w+)\.\{([^}]*)\};", read(path), re.M):
        for word in inner.split(","):
            name, _, local = word.strip().partition(" as ")
            found[local or name] = (crate, file, name)
    return found


# All functions of src/, each `fn` that stands in the code. (A type of functions, `fn(u8) -> u8`, has no name and is an error here: there is none in Rattle.)
def functions():
    found = []
    for path in sorted(glob.glob("crates/*/src/**/*.rt", recursive=True)):
        crate, text = path.split("/")[1], code_of(read(path))
        holders = [(m.end() - 1, closing(text, m.end() - 1), m[1] + "::") for m in re.finditer(r"\bimpl\s+(\w+)(?:<'_>)?\s*\{", text)]
        traits = [(m.end() - 1, closing(text, m.end() - 1)) for m in re.finditer(r"\btrait\s+\w[^{;]*\{", text)]
        for m in re.finditer(r"\bfn\b\s*(\w*)", text):
            asked = any(opens < m.start() < closes for opens, closes in traits)
            holder = next((name for opens, closes, name in holders if opens < m.start() < closes), "")
            start = max(text.rfind(c, 0, m.start()) for c in ";{}") + 1
            found.append(Function(crate, path, text, holder, start, m.start(), m[1], asked))
    return found


# The structs of src/: their fields with the type of each.
def structs():
    found = {}
    for path in glob.glob("crates/*/src/**/*.rt", recursive=True):
        text = code_of(read(path))
        for m in re.finditer(r"\bstruct\s+(\w+)\s*([({])", text):
            inner = text[m.end() : closing(text, m.end() - 1)]
            fields = [re.sub(r"\bpub(\([^)]*\))?\s*", "", part) for part in parts(inner)]
            if m[2] == "(":
                found[m[1]] = {str(i): kind for i, kind in enumerate(fields)}
            else:
                found[m[1]] = {f.partition(":")[0].strip(): f.partition(":")[2].strip() for f in fields}
    return found


# ---- .antt: definitions

def definition_text(path):
    return "\n".join(line.partition("--")[0] for line in read(path).split("\n"))


# What stands at the left edge of a text, each with what is indented below it; the members of a `mutual` block as if they stood there themselves.
def at_the_edge(text):
    for block in re.split(r"\n(?=\S)", text):
        if re.match(r"(?:unfoldable |abbrev )*mutual\n", block):
            yield from at_the_edge(re.sub(r"(?m)^  ", "", block.partition("\n")[2]))
        else:
            yield block


# The text of each name that a file declares at its left edge, and which of them are public.
@functools.cache
def declarations(path):
    found, public = {}, set()
    for block in at_the_edge(definition_text(path)):
        head = re.match(r"((?:unfoldable |abbrev |pub |data |record )*)([^\s({:]+)", block)
        if head and head[2] not in ("use", "mod", "module", "unfolding", "where", "pub"):
            found[head[2]] = found.get(head[2], "") + "\n" + block
            if "pub " in head[1]:
                public.add(head[2])
    return found, public


# The names that a text mentions: neither fields that are asked of something (` .name`) nor what stands in a module (`module.name`, but for its first part).
def names_in(text):
    return set(re.findall(r"(?<![.\w'-])[^\s(){},;.λ→×≡∷⊎↔]+", text))


# `use A.B.{c, d as e}`: from which file's declarations each name of a file of specs/ comes, as (crate, file, name).
@functools.cache
def imports(path):
    found = {}
    crate = path.split("/")[1]
    for module, inner in re.findall(r"^use (\S+?)\.\{([^}]*)\}", read(path), re.M):
        where = re.match(r"Rattle\.(\w+)\.specs\.(\w+)$", module)
        if where:
            for word in inner.split(","):
                name, _, local = word.strip().partition(" as ")
                found[local or name] = (where[1], where[2], name)
    return crate, found


# ---- Claims

CHAPTERS = "crates/claims/specs/Claims.antt"


def record_fields(text, name):
    inner = text.split(f"pub record {name} ", 1)[1]
    inner = re.split(r"\n(?=\S)", inner, maxsplit=1)[0]
    return {f.partition(":")[0].strip(): f.partition(":")[2] for f in re.split(r"\n  pub (?=[^\s:]+ :)", inner)[1:]}


# `chapter.field` with its type and the file that it stands in.
def fields():
    found = {}
    for chapter, kind in record_fields(definition_text(CHAPTERS), "Claims").items():
        path = f"crates/claims/specs/{kind.strip()}.antt"
        for field, type_ in record_fields(definition_text(path), kind.strip()).items():
            found[f"{chapter}.{field}"] = (type_, path)
    return found


# The field that is meant: by its whole name, or by its last where one chapter alone has it.
def field_named(name, known):
    found = [field for field in known if name == field or name == field.split(".")[1]]
    return found[0] if len(found) == 1 else None


# The definitions that these come to, (crate, file, name): themselves, and those that they mention, as far as they stand in the crate.
def definitions_behind(seeds, crate):
    seen, todo = set(), list(seeds)
    while todo:
        meant = todo.pop()
        if meant in seen:
            continue
        seen.add(meant)
        if meant[0] == crate:
            path = f"crates/{meant[0]}/specs/{meant[1]}.antt"
            todo += mentioned(declarations(path)[0].get(meant[2], ""), path)
    return seen


# The definitions that a text in a file of specs/ mentions.
def mentioned(text, path):
    own, _ = declarations(path)
    crate, imported = imports(path)
    here = os.path.basename(path)[:-5]
    for name in names_in(text):
        if name in own:
            yield (crate, here, name)
        elif name in imported:
            yield imported[name]


# All that a field of `Claims` speaks of, through the definitions of claims/specs.
def spoken_of(type_, path):
    return definitions_behind(mentioned(type_, path), "claims")


# ---- must-fail edits

# `crate/label` with its crate and its lines file, old and new.
def edits():
    found = {}
    for path in sorted(glob.glob("crates/*/must-fail/*.edit")):
        crate = path.split("/")[1]
        found[f"{crate}/{os.path.basename(path)[:-5]}"] = (crate, dict(line.split(": ", 1) for line in read(path).rstrip("\n").split("\n")))
    return found


# What each attacks, by docs/edits.txt.
def attacks():
    lines = read("docs/edits.txt").rstrip("\n").split("\n")
    return dict(line.split(": ", 1) for line in lines if not line.startswith("#"))


# The public functions that an edit of their crate tries: it changes the text of the function, of one inside the crate that it calls (not through
# another public one) or of a constant that they name; or a definition that their clauses come to.
def tried(edit, all_functions):
    crate, lines = edit
    path = f"crates/{crate}/{lines['file']}"
    own = [f for f in all_functions if f.crate == crate]
    found = []
    for function in own:
        inside, todo = [], [function] if function.public else []
        while todo:
            f = todo.pop()
            if f not in inside:
                inside.append(f)
                todo += [g for g in own if not g.public and g.name.split("::")[-1] in f.calls]
        if lines["file"].startswith("src/"):
            at = read(path).find(lines["old"])
            constant = next((m[1] for m in re.finditer(r"\b(?:const|static) (\w+)(?:\[[^]]*\]|[^;])*;", read(path)) if m.start() <= at < m.end()), None)
            hit = any((f.path == path and f.start <= at <= f.end) or (constant and re.search(rf"\b{constant}\b", f.body)) for f in inside)
        else:
            own_names = declarations(path)[0]
            changed = {(crate, os.path.basename(path)[:-5], name) for name, text in own_names.items() if lines["old"] in text}
            cited = [ghosts(f.path)[name] for f in inside for _, clause in f.clauses for name in names_in(clause) if name in ghosts(f.path)]
            hit = bool(changed & definitions_behind(cited, crate))
        if hit:
            found.append(function.name)
    return found


# ---- documents

# The rules of docs/RULES.md in their order, (heading, name): a rule has its name in bold at the front of its paragraph or of its row.
def rules():
    found, heading = [], ""
    for line in read("docs/RULES.md").split("\n"):
        named = re.match(r"(?:- |\| )\*\*([a-z0-9-]+)\*\*", line)
        if line.startswith("#"):
            heading = line.lstrip("# ")
        elif named:
            found.append((heading, named[1]))
    return found


# The rows of the tables of a document, under the heading that they stand below: the cells of each, without the tables' heads.
def tables(path):
    found, heading = {}, ""
    for line in read(path).split("\n"):
        if line.startswith("#"):
            heading = line.lstrip("# ")
        elif re.match(r"\|[-|]+\|$", line):
            found[heading].pop()
        elif line.startswith("|"):
            found.setdefault(heading, []).append([cell.strip() for cell in re.split(r"(?<!\\)\|", line)[1:-1]])
    return found
