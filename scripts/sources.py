"""What scripts read of the sources: crates.txt, functions with their contracts, and words of specs/."""
import pathlib
import re
import subprocess

TOP = pathlib.Path(__file__).resolve().parent.parent
FUNCTION = re.compile(r'^(\s*)(pub(?:\([a-z]+\))? )?(?:const |extern "C" )?fn (\w+)')
BLOCK = re.compile(r"^(?:pub )?(impl|trait)\b")
WORD = re.compile(r"^(?:(?:abbrev|unfoldable) pub|pub (?:record|data)) (\w+)")


class Function:
    """A function of a crate: its name with that of its type, whether callers see it, and its contract."""

    def __init__(self, crate, owner, name, public, contract):
        self.crate, self.owner, self.name = crate, owner, name
        self.public, self.contract = public, contract

    def full_name(self):
        return f"{self.owner}::{self.name}" if self.owner else self.name


def tracked():
    """The tracked files, or, where git doesn't say, all but what is made by the toolchain."""
    try:
        found = subprocess.run(["git", "ls-files", "-z"], cwd=TOP, capture_output=True, check=True)
    except (OSError, subprocess.CalledProcessError):
        made = {".git", "out", "__pycache__"}
        files = (path for path in TOP.rglob("*") if path.is_file())
        return sorted(path for path in files if not made & set(path.relative_to(TOP).parts))
    return [TOP / name for name in found.stdout.decode().split("\0") if name]


def listed():
    """By crate, in the order of crates.txt: its line there, and all that the line says that it stands on."""
    lines = [line.partition("#")[0].strip() for line in (TOP / "crates.txt").read_text("utf-8").splitlines()]
    return {re.match(r"\w+", line)[0]: (line, line.partition(":")[2].split()) for line in lines if line}


def crates():
    return sorted(path.name for path in (TOP / "crates").iterdir() if (path / "src").is_dir())


def source_files(crate):
    return sorted((TOP / "crates" / crate / "src").rglob("*.rt"))


def spec_files():
    return [path for path in sorted((TOP / "crates").glob("*/specs/*.antt")) if path.stem != "Lib"]


def type_of_block(line):
    """The type of an `impl`, or the name of a trait, and whether it implements a trait or is one."""
    text = re.sub(r"<[^<>]*(?:<[^<>]*>[^<>]*)*>", "", line.rstrip().rstrip("{")).replace("pub ", "")
    words = text.split()
    if "for" in words:
        return words[words.index("for") + 1], True
    return words[1].rstrip(":"), words[0] == "trait"


def contract_at(lines, number, indent):
    """The lines from a function's signature to before its body."""
    contract = []
    for line in lines[number:]:
        ended = line.rstrip()
        if ended in (indent + "{", indent + "{}"):
            break
        contract.append(line)
        if ended.endswith(";") or (re.search(r"\{\}?$", ended) and "ensures" not in line):
            break
    return contract


def functions_of(crate):
    for path in source_files(crate):
        owner, open_to_all = None, False
        lines = path.read_text("utf-8").splitlines()
        for number, line in enumerate(lines):
            if BLOCK.match(line):
                owner, open_to_all = type_of_block(line)
            elif line == "}":
                owner, open_to_all = None, False
            found = FUNCTION.match(line)
            if found:
                indent, pub, name = found.groups()
                public = pub == "pub " or (open_to_all and indent != "")
                contract = contract_at(lines, number, indent)
                yield Function(crate, owner if indent else None, name, public, contract)


def words_of(path):
    """The words that a file of specs/ declares, in order: each with its comment and its definition."""
    words, comment, definition = {}, [], None
    for line in path.read_text("utf-8").splitlines():
        found = WORD.match(line)
        if found:
            definition = []
            words[found.group(1)] = (" ".join(comment), definition)
        if line.startswith("--"):
            comment.append(line[2:].strip())
        elif not line.startswith(" "):
            comment = []
        if definition is not None and not line.startswith("--"):
            definition.append(line)
    return words
