"""What the texts of the sources say of definitions and clauses: which names a definition is made of, which names the
clauses of a function have, and which functions are called outside of the programs over rows."""

import functools
import pathlib
import re

CRATES = pathlib.Path(__file__).resolve().parents[2] / "crates"
NAME = re.compile(r"(?:\b(\w+)\.)?\b([A-Za-z_]\w*)")
LIST = re.compile(r"^\s*(?:ghost |pub |unfoldable )*use Rattle\.([\w.]+)\.\{(.*?)\}", re.MULTILINE | re.DOTALL)
ALIAS = re.compile(r"^\s*(?:ghost |pub )*use Rattle\.([\w.]+) as (\w+)", re.MULTILINE)
HANDED = re.compile(r"^(?:unfoldable )?pub use Rattle\.([\w.]+)\.\{(.*?)\}", re.MULTILINE | re.DOTALL)
HEAD = re.compile(r"(?:(?:abbrev|unfoldable|pub|record|data) )*([A-Za-z_]\w*)")
FUNCTION = re.compile(r"^( *)(?:pub(?:\([^)]*\))? )?(?:const )?fn (\w+)")


class Names:
    """The names that a file has from others: each with the file of its definition, as `crate.specs.File`."""

    def __init__(self, text):
        self.names = {}
        self.files = {alias: file for file, alias in ALIAS.findall(text)}
        for file, listed in LIST.findall(text):
            for entry in listed.split(","):
                name, _, alias = entry.strip().partition(" as ")
                self.names[alias or name] = (file, name)

    def of(self, text):
        """The definitions that a text names, each by its file and its name."""
        for file, name in NAME.findall(text):
            if file in self.files:
                yield home((self.files[file], name))
            elif name in self.names:
                yield home(self.names[name])

    def telling(self, text):
        """Those of them that tell something: all but the common ones of the library's prelude."""
        return {one for one in self.of(text) if one in definitions() or not one[0].endswith(".Prelude")}


@functools.cache
def handed():
    """The names that files hand on from others, each with the file that it comes from."""
    found = {}
    for path in CRATES.glob("*/specs/*.antt"):
        for file, listed in HANDED.findall(path.read_text(encoding="utf-8")):
            for name in listed.split(","):
                found[f"{path.parts[-3]}.specs.{path.stem}", name.strip()] = (file, name.strip())
    return found


def home(one):
    """A definition by the file in which it stands, where it is named by one that hands it on."""
    while one in handed():
        one = handed()[one]
    return one


def blocks(text):
    """The definitions of a file: each name with the text of all that stands under it."""
    found, name = {}, None
    for line in re.sub(r"--.*", "", text).splitlines():
        if not line.strip():
            continue
        if not line[0].isspace():
            head = None if re.match(r"(?:unfoldable )?(?:pub )?use\b", line) else HEAD.match(line)
            name = head[1] if head else None
        if name:
            found[name] = found.get(name, "") + line + "\n"
    return found


def remarks(path):
    """The definitions of a file of specs, each with the comment above it."""
    file, said = f"{path.parts[-3]}.specs.{path.stem}", []
    for line in path.read_text(encoding="utf-8").splitlines():
        remark = re.match(r"--+(.*)", line)
        if remark:
            said.append(remark[1].strip())
            continue
        head = HEAD.match(line)
        if said and head and not re.match(r"(?:unfoldable )?(?:pub )?use\b", line):
            yield (file, head[1]), " ".join(said)
        said = []


@functools.cache
def definitions():
    """Each definition with the definitions that it is made of."""
    made = {}
    for path in CRATES.glob("*/specs/*.antt"):
        text = path.read_text(encoding="utf-8")
        file, own, names = f"{path.parts[-3]}.specs.{path.stem}", blocks(text), Names(text)
        for name, block in own.items():
            here = {(file, other) for _, other in NAME.findall(block) if other in own}
            made[file, name] = (here | set(names.of(block))) - {(file, name)}
    return {one: {other for other in parts if other in made} for one, parts in made.items()}


@functools.cache
def whole(one):
    """A definition, and all that it is made of."""
    seen, left = {one}, [one]
    while left:
        new = definitions().get(left.pop(), set()) - seen
        seen |= new
        left.extend(new)
    return frozenset(seen)


def closure(wanted):
    """These definitions, and all that they are made of."""
    return set().union(*map(whole, wanted))


@functools.cache
def clauses(path):
    """The functions of a file, each with the definitions that its clauses name. A clause on `self` also speaks by the
    view of its type, and so does a method without a clause of its own."""
    text = (CRATES / path).read_text(encoding="utf-8")
    names, found, lines = Names(text), {}, text.splitlines()
    views = names.telling("\n".join(re.findall(r"^\s*ghost view = \{.*", text, re.MULTILINE)))
    for place, line in enumerate(lines):
        head = FUNCTION.match(line)
        if head:
            ending = re.compile(head[1] + r"(?:\{|\}|[^ ].*[{;]$)")
            end = next((k for k in range(place, len(lines)) if ending.match(lines[k])), len(lines))
            said = "\n".join(lines[place + 1 : end])
            own = names.telling(said)
            by_view = views if "self." in said or not own else set()
            found[head[2]] = found.get(head[2], set()) | own | by_view
    return found


@functools.cache
def called():
    """The names that are called in the sources of a crate whose program isn't one over rows."""
    found = set()
    for path in CRATES.glob("*/src/**/*.rt"):
        if not path.relative_to(CRATES).parts[0].endswith("rows"):
            text = re.sub(r"//.*|\bfn \w+", "", path.read_text(encoding="utf-8"))
            found.update(re.findall(r"\b(\w+)(?:::<[^>()]*>)?\(", text))
    return found
