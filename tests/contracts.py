"""What the scripts that look at the sources share: the crates' files, and the clauses of their public contracts."""
import functools
import os
import re
from collections import namedtuple

TOP = os.path.normpath(os.path.join(os.path.dirname(os.path.abspath(__file__)), ".."))
CRATES = os.path.join(TOP, "crates")
ITEM = re.compile(
    r"(?P<item>(?:pub(?:\(crate\))?\s+)?(?:const\s+)?(?:fn|struct|enum|trait|impl)\b[^\n]*)|"
    r"\b(?P<clause>requires|ensures|(?:pub )?ghost)\b(?: (?P<name>\w+))?"
)
# What a clause stands at: a file beneath src, and a function (`Type::name` of a method), a type or a trait. A clause
# without a name is called by its word. The kinds are requires, ensures, fact (of a value or of a whole trait), model,
# and item, the head of what clauses stand at.
Clause = namedtuple("Clause", "crate file owner kind name text imports")


def content(path):
    """The text of a file."""
    with open(path, encoding="utf-8") as file:
        return file.read()


def files(crate, folder, ending):
    """The files of a crate's folder, without those of its unit tests."""
    for at, folders, names in os.walk(os.path.join(CRATES, crate, folder)):
        folders[:] = sorted(it for it in folders if it != "tests")
        for name in sorted(names):
            if name.endswith(ending) and name != f"tests{ending}":
                yield os.path.join(at, name)


def imports(text):
    """The names that a text imports from the crates: each with the file that defines it and its name there."""
    found = {}
    for path, names, alias in re.findall(r"\buse\s+Rattle\.([\w.]+?)(?:\.\{([^}]*)\}|\s+as\s+(\w+))", text):
        if alias:
            found[alias] = (path, None)
        for name in filter(None, (it.strip() for it in names.split(","))):
            whole = name.split(" as ")
            found[whole[-1].strip()] = (path, whole[0].strip())
    return found


def exported(crate):
    """The names that a crate's root gives away, and its public modules."""
    for root in ("lib.rt", "main.rt"):
        path = os.path.join(CRATES, crate, "src", root)
        if os.path.exists(path):
            text = content(path)
            names = set()
            for part in re.findall(r"pub use ([^;]+);", text):
                names.update(re.findall(r"\w+", part))
            names.update(re.findall(r"^pub (?:fn|struct|enum|trait) (\w+)", text, re.M))
            return names, set(re.findall(r"^pub mod (\w+)", text, re.M))
    return set(), set()


@functools.lru_cache(maxsize=None)
def own_traits(crate):
    """The traits that a crate keeps to itself."""
    texts = map(content, files(crate, "src", ".rt"))
    return {name for text in texts for name in re.findall(r"^(?:pub\(crate\) )?trait (\w+)", text, re.M)}


def braced(text, at):
    """What begins at a word's brace: up to the brace that closes it."""
    begin = text.find("{", at)
    if begin < 0 or ";" in text[at:begin]:
        return ""
    depth = 0
    for i in range(begin, len(text)):
        depth += {"{": 1, "}": -1}.get(text[i], 0)
        if depth == 0:
            return text[begin : i + 1]
    return ""


class Block:
    """The item of a source that is being read: whose it is, and whether others than its crate can name it."""

    def __init__(self, given, own):
        self.given, self.own, self.type, self.is_of_trait = given, own, None, False
        self.owner, self.kind, self.block, self.is_public = None, None, None, False

    def enter(self, line, is_indented):
        kind = re.search(r"\b(fn|struct|enum|trait|impl)\b", line).group(1)
        name = re.search(r"\b(?:fn|struct|enum|trait)\s+(\w+)", line)
        is_pub = line.startswith("pub ")
        if kind == "impl":
            self.is_of_trait = " for " in line
            trait = re.search(r"(\w+)(?:<[^>]*>)? for ", line)
            self.type = None if trait and trait.group(1) in self.own else self.type_of(line)
            self.owner, self.is_public = self.type, self.type is not None
        elif kind == "fn" and is_indented:
            self.owner = f"{self.type}::{name.group(1)}"
            self.is_public = self.type is not None and (is_pub or self.is_of_trait)
        else:
            self.owner, self.is_public = name.group(1), is_pub and self.given(name.group(1))
            self.type = self.owner if kind == "trait" and self.is_public else None
            self.is_of_trait = kind == "trait"
        self.kind, self.block = kind, kind if kind != "fn" else self.block

    def leave_method(self):
        """What stands behind a method in its block, at the block's own depth, is of the block."""
        if self.kind == "fn" and self.type:
            self.owner, self.kind, self.is_public = self.type, self.block, True

    def type_of(self, line):
        """The public type that an `impl` is about."""
        head = re.sub(r"^impl(<(?:[^<>]|<[^<>]*>)*>)?", "", line).split(" for ")[-1]
        return next((it for it in re.findall(r"\w+", head) if self.given(it)), None)

    def kind_of(self, word, text, rest):
        """What a clause here is."""
        if word != "ghost":
            return word
        if self.kind == "impl":
            return "fact" if re.match(r" (output|next_gives|from_gives) =", rest) else "model"
        is_model = re.match(r"\{ Self →", text) or re.search(r"→ Type 0 \}", text)
        return "model" if is_model and self.kind == "trait" else "fact"


def items_of(crate, path, names, modules):
    """The public items of a file, each with the clauses of its contract behind it."""
    root = os.path.join(CRATES, crate, "src")
    file = os.path.relpath(path, root)
    is_open = os.path.exists(f"{root}/main.rt") or file.split("/")[0].removesuffix(".rt") in modules
    text, found = content(path), {}
    for part in re.findall(r"ghost (use [^;]+);", text):
        found.update(imports(part))
    text = re.sub(r"ghost use [^;]+;|//.*", "", text)
    block = Block(lambda it: is_open or it in names, own_traits(crate))
    for it in ITEM.finditer(text):
        if it.group("item"):
            begin = text.rfind("\n", 0, it.start()) + 1
            block.enter(it.group("item"), text[begin : it.start()] != "")
            if block.is_public:
                yield Clause(crate, file, block.owner, "item", "", "", found)
            continue
        word, told = it.group("clause"), braced(text, it.start())
        if word == "ghost" and text.startswith("    ghost", it.start() - 4) and "\n" == text[it.start() - 5]:
            block.leave_method()
        if block.is_public:
            kind = block.kind_of(word, told, text[it.start() + len(word) :].split("{")[0])
            yield Clause(crate, file, block.owner, kind, it.group("name") or word, told, found)


@functools.lru_cache(maxsize=None)
def public_items(crate):
    """The public items of a crate, file by file, each with the clauses of its contract behind it."""
    names, modules = exported(crate)
    return [it for path in files(crate, "src", ".rt") for it in items_of(crate, path, names, modules)]


def public_clauses(crate):
    """The clauses of a crate's public contracts, file by file."""
    return [it for it in public_items(crate) if it.kind != "item"]


def crates():
    """The names of the crates, from the bottom up: each behind those that it stands on."""
    lines = [it.split(":") for it in content(f"{TOP}/crates.txt").split("\n") if re.match(r"\w", it)]
    below = {name.split()[0]: told.split() for name, told in lines}
    placed = [name for name in below if not set(below[name]) & set(below)]
    while len(placed) < len(below):
        placed.append(next(it for it in below if it not in placed and set(below[it]) & set(below) <= set(placed)))
    return placed
