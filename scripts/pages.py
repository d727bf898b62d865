"""What the checks read of the pages, and of the sources that the pages have to agree with."""
import re

from sources import TOP, listed

EXAMPLES = TOP / "examples"
MANUAL = TOP / "docs" / "mptab.1"
MAP = TOP / "docs" / "MAP.md"
EXAMPLE_COLUMNS = ["File", "Words", "Status", "What it is"]
MAP_COLUMNS = ["Crate", "Does", "Stands on", "The contract used above"]
# The reasons that the program prints by name: the file and the enum.
REASONS = [
    ("mpt_base/src/fault.rt", "Reason"),
    ("mpt_route/src/route.rt", "Why"),
    ("mpt_parse/src/fault.rt", "LineWhy"),
    ("mpb_words/src/refusal.rt", "WordWhy"),
    ("mpb_replay_laws/src/verdict.rt", "BadWhy"),
    ("mpf_madt/src/refusal.rt", "MadtReason"),
    ("mpf_pir/src/table.rt", "PirReason"),
]


def cells_of(line):
    return [cell.strip() for cell in line.strip().strip("|").split("|")]


def table_of(page, columns):
    """The rows of the table with these columns: line number and cells."""
    is_inside = False
    for number, line in enumerate(page.read_text("utf-8").splitlines(), 1):
        if not line.startswith("|"):
            is_inside = False
        elif cells_of(line) == columns:
            is_inside = True
        elif is_inside and not set(line) <= set("|-: "):
            yield number, cells_of(line)


# Examples.


def example_rows():
    """The rows of the examples' table: the file, the words and the status."""
    for _, (name, words, status, _) in table_of(EXAMPLES / "README.md", EXAMPLE_COLUMNS):
        yield name.strip("`"), words.strip("`"), int(status)


def plain(line):
    """A line of the manual page as a reader sees it: without the marks of the page's language."""
    return re.sub(r"\\\[?(aq|\(aq)\]?", "'", line.replace("\\-", "-").replace("\\e", "\\").replace("\\&", ""))


def all_blocks():
    """The examples of the manual page, each between .EX and .EE, with its line number."""
    block, begun = None, 0
    for number, line in enumerate(MANUAL.read_text("utf-8").splitlines(), 1):
        if line == ".EX":
            block, begun = [], number
        elif line == ".EE":
            yield begun, block
            block = None
        elif block is not None:
            block.append(plain(line))


def example_blocks():
    """Those that are run."""
    return [(number, block) for number, block in all_blocks() if block and block[0].startswith("$ ")]


def forms():
    """The words of the forms that the manual page names, in its synopsis."""
    synopsis = MANUAL.read_text("utf-8").split(".SH SYNOPSIS")[1].split(".SH")[0]
    return re.findall(r"^\.B mptab (\w+)", synopsis, re.M)


def example_findings():
    """An example that isn't run, a form without one, and a stored text that no row makes."""
    rows = list(example_rows())
    commands = [line[2:] for _, block in example_blocks() for line in block if line.startswith("$ ")]
    shown = " ; ".join(commands)
    for form in forms():
        if not re.search(rf"\bmptab {form}\b", shown):
            yield f"docs/mptab.1: no example of {form}"
        if not any(words.split()[0] == form for _, words, _ in rows):
            yield f"examples/README.md: no row of {form}"
    for number, block in all_blocks():
        if (number, block) not in example_blocks() and any(line.startswith("$ ") for line in block):
            yield f"docs/mptab.1:{number}: an example that isn't run: its first line has to be a command"
    named = {name for name, _, _ in rows} | {word for _, words, _ in rows for word in words.split()}
    for path in sorted(EXAMPLES.iterdir()):
        if path.is_file() and path.suffix not in (".md", ".svg") and path.name not in named:
            yield f"examples/{path.name}: no row of examples/README.md names it"


# The crates.


def stands_on():
    """By crate the crates that it stands on, without those that these stand on themselves."""
    uses = {crate: names for crate, (_, names) in listed().items()}

    def all_below(crate, found):
        for name in uses.get(crate, []):
            if name not in found:
                found.add(name)
                all_below(name, found)
        return found

    return {
        crate: [name for name in names if not any(name in all_below(other, set()) for other in names if other != name)]
        for crate, names in uses.items()
    }


def map_rows():
    """The rows of the map: by crate the line number, and the cells without the crate's."""
    for number, (crate, *cells) in table_of(MAP, MAP_COLUMNS):
        yield number, re.sub(r"\[`(\w+)`\]\([^)]*\)|`(\w+)`", r"\1\2", crate), cells


def used_above(cell):
    """The calls and types of a cell of the map: of `Type::call` the call."""
    return [name.split("::")[-1] for name in re.findall(r"`([^`]+)`", cell)]


def declares(crate, name):
    """Whether a crate's sources declare a function or a type of that name."""
    sources = (TOP / "crates" / crate / "src").rglob("*.rt")
    return any(re.search(rf"\b(?:fn|struct|enum|trait) {name}\b", path.read_text("utf-8")) for path in sources)


def told(names):
    """The cell of what a crate stands on."""
    return ", ".join(f"`{name}`" for name in names)


def map_findings():
    """Where the map differs from crates.txt or the sources: a crate without a row, a row without a crate, another cell or
    order, a call that the crate doesn't have."""
    wanted, found = stands_on(), {}
    for number, crate, cells in map_rows():
        found[crate] = cells
        if crate not in wanted:
            yield f"docs/MAP.md:{number}: no crate {crate} in crates.txt"
        elif len(cells) != 3 or cells[1] != told(wanted[crate]):
            yield f"docs/MAP.md:{number}: {crate} stands on {told(wanted[crate])}; scripts/claims --map writes it"
        elif not cells[0]:
            yield f"docs/MAP.md:{number}: nothing says what {crate} does"
        else:
            yield from (f"docs/MAP.md:{number}: {crate} has no {name}" for name in used_above(cells[2]) if not declares(crate, name))
    yield from (f"docs/MAP.md: no row of {crate}" for crate in wanted if crate not in found)
    order = [crate for crate in found if crate in wanted]
    if order != [crate for crate in wanted if crate in found]:
        yield "docs/MAP.md: the crates aren't in the order of crates.txt; scripts/claims --map writes them so"


def write_map():
    """Writes the map's rows anew: the order and the third column by crates.txt, the other cells as they are. A crate
    without a row gets one to be filled in."""
    wanted, rows = stands_on(), list(map_rows())
    cells = {crate: own for _, crate, own in rows}
    lines = MAP.read_text("utf-8").splitlines()
    made = []
    for crate, names in wanted.items():
        does, above = (cells[crate][0], cells[crate][2]) if len(cells.get(crate, [])) == 3 else ("", "")
        made.append(f"| [`{crate}`](../crates/{crate}) | {does} | {told(names)} | {above} |".replace("|  |", "| |"))
    first, last = rows[0][0] - 1, rows[-1][0]
    MAP.write_text("\n".join([*lines[:first], *made, *lines[last:], ""]), "utf-8")


# Reasons.


def variants_of(path, name):
    """The variants of an enum, each with its number where it has one."""
    text = (TOP / "crates" / path).read_text("utf-8")
    body = re.search(rf"pub enum {name} \{{\n(.*?)^\}}", text, re.M | re.S)
    return re.findall(r"^    (\w+)(?: = (\d+))?,", body[1], re.M) if body else []


def reason_findings():
    """A name of a reason that is on no page, with its number in a row where it has one."""
    pages = [path for path in (TOP / "docs").glob("*.md")]
    text = "\n".join(path.read_text("utf-8") for path in pages if path.name not in ("CLAIMS.md", "MEASURED.md", "CHECKING.md"))
    for path, enum in REASONS:
        variants = variants_of(path, enum)
        if not variants:
            yield f"crates/{path}: no enum {enum}"
        for variant, number in variants:
            found = rf"^\| {number} \| {variant} \|" if number else rf"^\| (?:\d+ \| )?`?{variant}`? \||`{variant}`"
            if not re.search(found, text, re.M):
                yield f"docs: no page names the reason {enum}::{variant}" + (f", {number}" if number else "")
