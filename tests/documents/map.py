"""map: every statement that a row of the map in docs/PROOFS.md names stands in one of the row's files, and every must-fail edit
there is one of the crates of these files. The edits that the map does not name stand in docs/ARGUMENT.md, in the order of
crates.txt, with what each is about; with --fix that table is written anew."""
import pathlib
import re
import sys

ROOT = pathlib.Path(__file__).resolve().parents[2]
ARGUMENT = ROOT / "docs/ARGUMENT.md"
BEGIN, END = "<!-- edits: tests/documents/map.py -->\n\n", "\n<!-- /edits -->\n"
FILE = re.compile(r"[a-z_]+(/[A-Za-z_/.]+)?")
wrong = []


def rows(text):
    """The cells of every row of a table, with its line."""
    for number, line in enumerate(text.splitlines(), 1):
        if line.startswith("|") and not line.startswith("|---"):
            yield number, [cell.strip() for cell in line.strip("|").split("|")]


def quoted(cell):
    return re.findall(r"`([^`]+)`", cell)


def files_of(name):
    """The files that charts/specs/Demand, charts/src/lib.rt or charts stands for."""
    path = ROOT / "crates" / name
    if path.is_dir():
        return [file for file in path.rglob("*") if file.suffix in (".antt", ".rt")]
    return [path if path.suffix else path.with_suffix(".antt")]


def edits():
    """Every edit, as its crate and its name."""
    return {(path.parts[-3], path.stem) for path in (ROOT / "crates").glob("*/must-fail/*.edit")}


def check_map(known):
    """What the map names of the edits."""
    text, named = (ROOT / "docs/PROOFS.md").read_text(), set()
    first = text[: text.index("## The map")].count("\n")
    for number, cells in rows(text):
        if number <= first or len(cells) != 4 or cells[0] == "rule":
            continue
        names = [name.strip() for name in cells[2].split(",") if FILE.fullmatch(name.strip())]
        files = [file for name in names for file in files_of(name)]
        wrong.extend(f"PROOFS.md:{number}: no file {file}" for file in files if not file.exists())
        content = "\n".join(file.read_text() for file in files if file.exists())
        for statement in quoted(cells[1]) if files else ():
            if not re.search(r"(?<![\w-])" + re.escape(statement) + r"(?![\w-])", content):
                wrong.append(f"PROOFS.md:{number}: no {statement} in {cells[2]}")
        crates = {name.split("/")[0] for name in names}
        for edit in quoted(cells[3]):
            found = {(crate, edit) for crate in crates} & known
            if not found:
                wrong.append(f"PROOFS.md:{number}: no edit {edit} in {cells[2]}")
            named |= found
    return named


def about(crate, edit):
    """What the first line of an edit says, or where it is made."""
    first = (ROOT / f"crates/{crate}/must-fail/{edit}.edit").read_text().splitlines()[0]
    return first.removeprefix("# ").removeprefix("file: ").removesuffix(".antt")


def inner(left):
    """The table of the edits that are left."""
    crates = re.findall(r"^(\w+)(?: staticlib)?:", (ROOT / "crates.txt").read_text(), re.M)
    yield "| crate | must-fail edit | what it is about |\n|---|---|---|\n"
    for crate, edit in sorted(left, key=lambda one: (crates.index(one[0]), one[1])):
        yield f"| {crate} | `{edit}` | {about(crate, edit)} |\n"


known = edits()
due = BEGIN + "".join(inner(known - check_map(known))) + END
text = ARGUMENT.read_text()
told = text[text.index(BEGIN) : text.index(END) + len(END)]
if "--fix" in sys.argv:
    ARGUMENT.write_text(text.replace(told, due))
elif told != due:
    wrong.append("docs/ARGUMENT.md has another table of edits; tests/documents/run --fix writes it")
for line in wrong:
    print(f"map: {line}", file=sys.stderr)
sys.exit(1 if wrong else 0)
