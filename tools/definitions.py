"""What stands in the sources under crates/: definitions, types, functions and clauses, with their text and place."""
import functools, glob, os, re

TOP = os.path.dirname(os.path.dirname(os.path.abspath(__file__)))
DEFINES = re.compile(r"^(\s*)(?:abbrev |unfoldable )?(?:pub )?(?:(record|data) )?([A-Za-z_][\w']*)(?: [:({]|$)")
WORD = re.compile(r"[A-Za-z_][\w']*")
DECLARES = re.compile(r"^\s*(?:pub(?:\([a-z]+\))? )?(?:const )?(struct|enum|trait|fn|const|type|static) ([A-Za-z_]\w*)")


class Item:
    """A definition of a specs file, or a type or function of a source file."""

    def __init__(self, name, crate, module, path, line, lines, kind):
        self.name, self.crate, self.module, self.path, self.line, self.lines, self.kind = name, crate, module, path, line, lines, kind

    @property
    def place(self):
        return f"{self.path}:{self.line}"

    @property
    def size(self):
        return sum(1 for it in self.lines if it.strip() and not it.strip().startswith(("--", "//")))


def read(path):
    with open(os.path.join(TOP, path), encoding="utf-8") as file:
        return file.read().split("\n")


def paths(pattern):
    """Returns the files of a pattern, as paths from the top."""
    return [os.path.relpath(it, TOP) for it in sorted(glob.glob(os.path.join(TOP, pattern)))]


def files(part, ending):
    """Returns the crate and path of each file below crates/*/PART."""
    for crate in sorted(os.listdir(os.path.join(TOP, "crates"))):
        for folder, folders, names in os.walk(os.path.join(TOP, "crates", crate, part)):
            folders.sort()
            for name in sorted(names):
                if name.endswith(ending):
                    yield crate, os.path.relpath(os.path.join(folder, name), TOP)


def starts_definition(line):
    """Returns the indentation and name where a line begins a definition, else None."""
    found = re.match(r"^(\s*)(?:abbrev |unfoldable )?(?:pub )?(record|data) ([A-Za-z_][\w']*)", line)
    found = found or re.match(r"^(\s*)((?:abbrev |unfoldable )(?:pub )?)([A-Za-z_◌][^\s:]*) :", line)
    return (len(found.group(1)), found.group(3)) if found else None


def body_of(lines, at, depth):
    """Returns the definition that begins at a line, with the comment right above it, and nothing of the next."""
    first = at
    while first and lines[first - 1].strip().startswith("-- ") and not lines[first - 1].strip().startswith("-- ##"):
        first -= 1
    last = at + 1
    while last < len(lines) and lines[last].strip():
        inner = len(lines[last]) - len(lines[last].lstrip())
        if inner < depth or (inner == depth and (starts_definition(lines[last]) or lines[last].lstrip().startswith(("--", "use ", "module ")))):
            break
        last += 1
    return first, [it[depth:] for it in lines[first:last]]


@functools.lru_cache(None)
def specs():
    """Returns all definitions of specs files, by name."""
    found = {}
    for crate, path in files("specs", ".antt"):
        lines, module = read(path), os.path.basename(path)[:-5]
        for at, line in enumerate(lines):
            start = starts_definition(line)
            if start:
                first, text = body_of(lines, at, start[0])
                found.setdefault(start[1], []).append(Item(start[1], crate, module, path, at + 1, text, "definition"))
    return found


def braced(lines, at):
    """Returns the line behind the item that begins at a line: its braces are closed, clauses aside, or it ends with ';' before any opened."""
    depth, opened, clause = 0, False, False
    for last in range(at, len(lines)):
        text = re.sub(r"'[{}]'|\"(?:[^\"\\]|\\.)*\"|//.*", "", lines[last])
        clause |= depth == 0 and bool(re.match(r"\s*(ensures|requires|decreases)\b", text))
        depth += text.count("{") - text.count("}")
        opened |= "{" in text and not clause
        if depth == 0:
            if not clause and (opened and text.rstrip().endswith(("}", "};", "},")) or not opened and text.rstrip().endswith(";")):
                return last + 1
            clause = False
    return len(lines)


@functools.lru_cache(None)
def code():
    """Returns all types, traits, functions and constants of source files, by name."""
    found = {}
    for crate, path in files("src", ".rt"):
        lines = read(path)
        for at, line in enumerate(lines):
            start = DECLARES.match(line)
            if start:
                first = at
                while first and lines[first - 1].strip().startswith(("// ", "/// ", "///", "#[")):
                    first -= 1
                depth = len(line) - len(line.lstrip())
                last = braced(lines, at)
                text = [it[depth:] if not it[:depth].strip() else it for it in lines[first:last]]
                found.setdefault(start.group(2), []).append(Item(start.group(2), crate, os.path.basename(path)[:-3], path, at + 1, text, start.group(1)))
    return found


def narrowed(items, where):
    """Returns the items of a crate, a module or a file's stem."""
    return [it for it in items if not where or where in (it.crate, it.module, f"{it.crate}.{it.module}")]


def clause_of(item, name):
    """Returns a clause of a function, with the comment right above it."""
    for at, line in enumerate(item.lines):
        if re.match(rf"^\s*(ensures|requires|decreases) {name} \{{", line):
            first, last, depth = at, at, 0
            while first and item.lines[first - 1].strip().startswith("// "):
                first -= 1
            while True:
                depth += item.lines[last].count("{") - item.lines[last].count("}")
                last += 1
                if depth <= 0:
                    break
            return [it.strip() if number == 0 or it.startswith("    ") and not it.startswith("        ") else it[4:] for number, it in enumerate(item.lines[first:last])]
    return None


def has_clause(item, name):
    return any(re.match(rf"\s*(ensures|requires)\*? {name} \{{", line) for line in item.lines)


def clauses(item):
    """Returns the words of all clauses of a function."""
    words, depth = [], 0
    for line in item.lines:
        if depth == 0 and not re.match(r"^\s*(ensures|requires) ", line):
            continue
        depth += line.count("{") - line.count("}")
        words += WORD.findall(line)
    return words


# ## What a contract reaches

@functools.lru_cache(None)
def imports(path):
    """Returns what a file's names mean: each by its crate, its module and its name there; and its modules by their short names."""
    names, modules = {}, {}
    for line in read(path):
        line = line.strip().removeprefix("ghost ").removeprefix("pub ").rstrip(";")
        found = re.match(r"use Rattle\.(\w+)\.specs\.([\w.]+?)\.\{(.*)\}$", line)
        if found:
            for it in found.group(3).split(","):
                name, _, short = it.strip().partition(" as ")
                names[short or name] = (found.group(1), found.group(2), name)
            continue
        found = re.match(r"use Rattle\.(\w+)\.specs\.([\w.]+?)(?: as (\w+))?$", line)
        if found:
            modules[found.group(3) or found.group(2).split(".")[-1]] = (found.group(1), found.group(2))
    return names, modules


def meant(crate, module, name):
    """Returns the item of a name as it is imported: a definition, or the type of a source file."""
    parts = module.split(".")
    if parts[0] == "declared":
        kind = parts[2] if len(parts) > 2 and parts[2] not in ("TheVariants", "TheConstants") else name
        return next((it for it in code().get(kind, []) if it.crate == crate and it.module == parts[1]), None)
    found = next((it for it in specs().get(name, []) if it.crate == crate and it.module == parts[-1]), None)
    if found:
        return found
    again = os.path.join("crates", crate, "specs", *parts) + ".antt"
    if os.path.exists(os.path.join(TOP, again)) and name in imports(again)[0] and imports(again)[0][name] != (crate, module, name):
        return meant(*imports(again)[0][name])
    return None


def cited(item, words=None):
    """Returns the items that an item's text names."""
    names, modules = imports(item.path)
    found = []
    for line in item.lines if words is None else [" ".join(words)]:
        text = line.split("-- ")[0]
        for word in WORD.findall(text):
            if word in names:
                found.append(meant(*names[word]))
            elif item.kind == "definition":
                found += [it for it in specs().get(word, []) if it.path == item.path and it is not item]
        for short, name in re.findall(r"([A-Za-z_]\w*)\.([A-Za-z_][\w']*)", text):
            if short in modules:
                found.append(meant(*modules[short], name))
    return [it for it in found if it]


def closure(items):
    """Returns these items and all that they reach."""
    todo, seen = list(items), {}
    while todo:
        item = todo.pop()
        if item.place not in seen:
            seen[item.place] = item
            todo += cited(item) if item.kind == "definition" else []
    return list(seen.values())


def reached(function):
    """Returns all definitions and types that the clauses of a function reach."""
    return closure(cited(function, clauses(function)))
