"""Which edits a run has to try: those of each crate on which something has changed since all of its edits were refused,
and a tenth of the others.

What an edit shows depends on the files of its crate, on what of the crates below it can be seen from above, on the kit and
on the script that tries it. A proof sees of the crates below their definitions, types, contracts and lemmas; it doesn't
see the body of a function, which its contract stands for, nor the proof of it. The file edits.tried keeps, for each
crate, a sum of these at which all of its edits were refused. The run that refused them writes it. A line that is altered,
or that stands there twice, is no sum of anything: its crate is tried again."""
import collections
import glob
import hashlib
import os
import re

TOP = os.path.normpath(os.path.join(os.path.dirname(os.path.abspath(__file__)), ".."))
KEPT = f"{TOP}/tests/edits.tried"
SCRIPT = f"{TOP}/tests/edits"
FOLDER = "refused"
# One in so many of the edits that stand by the kept file is tried all the same.
SHARE = 10
# A line of an edit that nothing which is tried depends on.
SHOWS = b"shows: "
# How a function begins, and how a clause of its contract does.
FUNCTION = re.compile(r"( *)(?:pub(?:\(crate\))? )?fn \w")
CLAUSE = re.compile(r" *(?:requires|ensures|ghost)\b")
# The folders that a crate is made from.
PARTS = ("src", "specs", "proofs")
# The files of a function's own proof, in a folder of its name.
OWN_PROOFS = ("Answers.antt", "Invariants.antt", "Proof.antt")


def sum_of(*parts):
    """A sum of bytes and texts that tells where each ends."""
    return hashlib.sha256(repr(parts).encode()).hexdigest()


def content(path):
    with open(path, "rb") as file:
        return file.read()


def kit_sum(kit):
    """A sum of the toolchain: its own lists of sums, and the commands by which edits are checked."""
    lists = sorted(glob.glob(f"{kit}/WHAT*"))
    return sum_of(*((os.path.basename(it), content(it)) for it in [*lists, f"{kit}/bin/rt", f"{kit}/bin/rtlib.py"]))


def files_of(crate):
    """The files that a crate's edits stand on beside its sources, in their order."""
    folder = f"{crate.folder}/{FOLDER}"
    return [f"{folder}/{it}" for it in sorted(os.listdir(folder))] if os.path.isdir(folder) else []


def edit_text(path):
    """What of an edit is tried."""
    lines = content(path).split(b"\n") if os.path.isfile(path) else []
    return [it for it in lines if not it.startswith(SHOWS)]


def body_of(lines, at, indent):
    """The lines of the body of a function that begins at a line, as `rt fmt` lays it out: behind the signature, or behind
    the contract in a line of its own, up to a brace at the function's depth. None where it has none, or isn't so."""
    in_contract = False
    for begin in range(at, len(lines)):
        line = lines[begin]
        in_contract = in_contract or CLAUSE.match(line)
        if line == f"{indent}{{" or (line.endswith(" {") and not in_contract):
            ends = (it for it in range(begin + 1, len(lines)) if lines[it] == f"{indent}}}")
            end = next(ends, None)
            return None if end is None else (begin, end)
        if not line or line.endswith(";"):
            return None
    return None


def without_bodies(text):
    """A source without the bodies of its functions. One with macros, which may write what they like, is left whole."""
    if "macro_rules!" in text:
        return text
    lines, kept, at = text.split("\n"), [], 0
    while at < len(lines):
        begins = FUNCTION.match(lines[at])
        body = body_of(lines, at, begins.group(1)) if begins else None
        begin, end = body or (at, at)
        kept += lines[at : begin + 1]
        at = end + 1
    return "\n".join(kept)


def sources_of(crate):
    """The files that a crate is made from, by their names in its folder."""
    for part in PARTS:
        for at, folders, names in os.walk(f"{crate.folder}/{part}"):
            folders.sort()
            for name in sorted(names):
                yield os.path.relpath(f"{at}/{name}", crate.folder), content(f"{at}/{name}")


def seen_from_above(crate):
    """What of a crate's files proofs of the crates above it can see."""
    for name, told in sources_of(crate):
        is_own_proof = name.count(os.sep) > 1 and os.path.basename(name) in OWN_PROOFS
        if not (name.startswith(f"proofs{os.sep}") and is_own_proof):
            yield name, without_bodies(told.decode()) if name.endswith(".rt") else told


def sums_of(rt, crates):
    """For each crate a sum of all that its edits stand on."""
    tool = kit_sum(rt.KIT), content(SCRIPT)
    seen = {crate.name: sum_of(crate.said, *seen_from_above(crate)) for crate in crates}
    found = {}
    for crate in crates:
        own = list(sources_of(crate))
        edits = [(os.path.basename(it), edit_text(it)) for it in files_of(crate)]
        below = [(it.name, seen[it.name]) for it in crate.below()]
        found[crate.name] = sum_of(tool, crate.said, own, below, edits)
    return found


def kept_sums():
    """The sums of the kept file, by their crates."""
    if not os.path.isfile(KEPT):
        return {}
    with open(KEPT, encoding="utf-8", errors="replace") as file:
        found = re.findall(r"(?m)^(\w+) ([0-9a-f]{64})$", file.read())
    often = collections.Counter(name for name, _ in found)
    return {name: told for name, told in found if often[name] == 1}


def keep(names, name, told):
    """Keeps a crate's sum, or none of it, among those of the crates that have edits."""
    found = {**kept_sums(), name: told}
    lines = [f"{it} {found[it]}\n" for it in sorted(found) if it in names and found[it]]
    with open(f"{KEPT}.new", "w", encoding="utf-8") as file:
        file.write("".join(lines))
    os.replace(f"{KEPT}.new", KEPT)


def chosen(labels, sums):
    """The edits to be tried, of labels by their crates, and the crates on which something has changed. What is tried of
    the others is chosen by a sum over all crates, so that it's another tenth wherever a source is another one."""
    kept = kept_sums()
    changed = [name for name in labels if kept.get(name) != sums[name]]
    others = [label for name in labels if name not in changed for label in labels[name]]
    seed = sum_of(sorted(sums.items()))
    share = sorted(others, key=lambda it: sum_of(seed, it))[: -(-len(others) // SHARE)]
    return {label for name in changed for label in labels[name]}.union(share), changed
