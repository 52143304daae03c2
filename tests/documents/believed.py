"""believed: which definitions a reader of a statement has to read, and how many lines they are: those that occur in it, and in
those, down to the kit's. Left out is what is pinned: a definition of which another statement that is read says exactly when it
answers what. Prints the table of docs/PROOFS.md; with --check it holds the table there to it, with --fix it writes it."""
import pathlib
import re
import sys
from collections import defaultdict

ROOT = pathlib.Path(__file__).resolve().parents[2]
PROOFS = ROOT / "docs/PROOFS.md"
BEGIN, END = "<!-- believed: tests/documents/believed.py -->\n\n", "\n<!-- /believed -->\n"

# What is read for each demand, FILE:NAME,NAME of crates/; and what is pinned, FILE:NAME by a statement. "what is read" pins a
# definition where the statements read there say all that is promised of it.
LISTS = """
charts/specs/Chart:verdict_of RefusesExactly
charts/specs/Answer:listing_of ListingRefusesExactly
charts/specs/Pair:pair_verdict_of PairRefusesExactly
charts/specs/Piece:piece_at PiecesAsGiven
"""
TEST = """
line_segment/specs/Segment:intersect_of `SaysYesExactly` and `OverlapExactly`
line_segment/specs/Segment:crossing_of CrossingIsCramers
line_segment/specs/Segment:contains_of ContainsExactly
"""
SWEEP = """
bentley_ottmann/specs/Swept:sweep_of what is read
bentley_ottmann/specs/Swept:lent_after what is read
"""
FULL = """
full_sweep/specs/Swept:sweep_of what is read
full_sweep/specs/Swept:lent_after what is read
"""
PAIRS = """
naive/specs/AllPairs:all_pairs_of what is read
naive/specs/AllPairs:lent_after what is read
"""
DEMANDS = [
    (
        "points and pieces",
        "fractions/specs/Point:point_order line_segment/specs/Piece:piece_of,HasLength line_segment/specs/Geometry:LiesOn",
        "",
    ),
    (
        "1, lists",
        "charts/specs/Demand:RefusesExactly,ListingRefusesExactly,PairRefusesExactly,PiecesAsGiven,PiecesHaveLength",
        LISTS,
    ),
    (
        "1, files",
        "chart_file/specs/Demand:ReadsExactly,LentExactly,ReadsFile,FileReads chart_file/specs/Reading:Reads",
        LISTS
        + """
chart_file/specs/Reading:reading_of ReadsExactly
chart_file/specs/Reading:lent_reading LentExactly
""",
    ),
    (
        "1, files written",
        "chart_writer/specs/Demand:RefusesExactly,RefusesWhole,DoneExactly,WritesFewest,ReadsWritten,WritesRead",
        LISTS
        + """
chart_file/specs/Reading:reading_of ReadsExactly
chart_file/specs/Reading:lent_reading LentExactly
chart_writer/specs/Writing:writing_of RefusesExactly
chart_writer/specs/Writing:written_by what is read
""",
    ),
    (
        "1, the sweep",
        "promises/specs/Sweep:Refusals,Ported",
        SWEEP,
    ),
    ("2, the segment test", "line_segment/specs/Demand:SaysYesExactly", TEST),
    (
        "2, its stretch and its point",
        "line_segment/specs/Demand:OverlapExactly,OverlapEnds,CrossingIsCramers,ContainsExactly",
        TEST,
    ),
    (
        "2, the place",
        "place/specs/Demand:PlaceIsDue,AnswerIsDue,AtExactly,AlongExactly",
        LISTS
        + TEST
        + """
place/specs/Place:place_of PlaceIsDue
place/specs/Place:where_of `AtExactly` and `AlongExactly`
place/specs/Pair:place_answer_of AnswerIsDue
""",
    ),
    (
        "2, all pairs",
        "promises/specs/AllPairs:Allowed,AllPairsPromises",
        LISTS + PAIRS,
    ),
    (
        "2, a supplier's list",
        "supplied/specs/Demand:RefusesInOrder,SaysWhatIsDue,OneIsDue,AcceptsExactly,AcceptsLists,AcceptsAllPairs,"
        "AcceptsLesserFirst,RefusesOneLess,RefusesAnother,RefusesTwice",
        LISTS + PAIRS + """
supplied/specs/Checking:checked_of `SaysWhatIsDue` and `RefusesInOrder`
naive/specs/AllPairs:pairs_of `ListsExactly` of naive
""",
    ),
    (
        "a folded line",
        "folded_line/specs/Demand:FoldsToNearest,RefusesExactly,RefusesWhole,DoneExactly,HoldsFolded,HoldsNothingElse,"
        "HoldsBetween,RunsLeftToRight,AcceptedByAll",
        """
charts/specs/Chart:verdict_of RefusesExactly
folded_line/specs/Folded:folded FoldsToNearest
folded_line/specs/Drawing:drawing_of RefusesExactly
folded_line/specs/Drawing:drawn_by what is read
folded_line/specs/Line:line RunsLeftToRight
""",
    ),
    (
        "2, an open chart",
        "open_chart/specs/Demand:AddsExactly,DropsExactly,ListsWhenRoomy,CountsUsed,PiecesAsGiven,KeepsLength,RefusedAltersNothing,"
        "AltersOnePlace,AddsAfterDropping,BeginsEmpty,StaysTrue,ListsAfresh,ListsExactly,ListsInOrder,ListsOnce "
        "open_chart/specs/Changes:changed_of,after_adding,after_dropping,emptying_of,after_emptying,used_of "
        "open_chart/specs/Listing:open_pairs_of,lent_after",
        LISTS
        + TEST
        + """
open_chart/specs/Changes:adding AddsExactly
open_chart/specs/Changes:dropping DropsExactly
open_chart/specs/Listing:listing_on ListsWhenRoomy
open_chart/specs/Memory:used_below CountsUsed
open_chart/specs/Listing:open_pairs `ListsExactly`, `ListsInOrder` and `ListsOnce`
""",
    ),
    (
        "2, the order of the list",
        "plain_order/specs/Demand:BeforeExactly,ListsInOrder,OneOrder,RefusesInOrder "
        "same_order/specs/Demand:PlainIsPorted,EnoughBudget,RefusedAlike",
        LISTS + PAIRS + SWEEP + """
plain_order/specs/Order:before BeforeExactly
plain_order/specs/Plain:in_order_lem `ListsInOrder` and `OneOrder`
plain_order/specs/Plain:ordering_of RefusesInOrder
""",
    ),
    (
        "3",
        "promises/specs/Sweep:ListsExactly,ListsInOrder,VisitsInOrder,ListsMeetings,FullSweepBounded,Ported "
        "promises/specs/Chart:NoneUpright sweep_geometry/specs/Demand:FirstCommon",
        LISTS + SWEEP + PAIRS + "charts/specs/Demand:ListingDue ListingRefusesExactly",
    ),
    (
        "3, the new mode",
        "full_promises/specs/Sweep:FullPromises,Full",
        LISTS + SWEEP + FULL + PAIRS + "charts/specs/Demand:ListingDue ListingRefusesExactly",
    ),
    (
        "3, a piece taken out",
        "piece_out/specs/Demand:CutIsAChart,PortedWithout,NewWithout,AllPairsWithout,PortedAdds,NewAdds,AllPairsAdds",
        LISTS + SWEEP + FULL + PAIRS + "charts/specs/Demand:ListingDue ListingRefusesExactly",
    ),
    (
        "1 and 3, a batch",
        "batch/specs/Demand:NeedsExactly,RefusesExactly,RefusesWhole,DoneExactly,EachAlone,KeepsTheRest,ReadsAlone "
        "batch_promises/specs/Sweep:InBatch",
        LISTS + FULL + """
batch/specs/Charts:need NeedsExactly
batch/specs/Batch:Batches what is read
""",
    ),
    ("the steps of the sweep", "bentley_ottmann/specs/Swept:sweep_of,lent_after", LISTS + TEST),
    ("the steps of the new mode", "full_sweep/specs/Swept:sweep_of,lent_after", LISTS + TEST),
    (
        "the listing",
        "listing/specs/Listing:listing_answer,lent_after units/specs/Demand:LowExactly,HighExactly,EqualWhenWhole decimals/specs/Demand:ReadsBack",
        LISTS
        + TEST
        + """
chart_file/specs/Reading:reading_of ReadsExactly
units/specs/Units:low_of LowExactly
units/specs/Units:high_of HighExactly
decimals/specs/Decimal:decimal ReadsBack
""",
    ),
    (
        "the calls for C",
        "c_records/specs/Numbers:turn_number,order_number c_records/specs/Meetings:fields_of c_records/specs/Places:placed_of "
        "c_records/specs/Sweeps:swept_fields c_records/specs/Checks:checked_as",
        "",
    ),
]

WORD = r"[^\s(){}\[\].,;:=λ→×↔]+"


class Spec:
    """A file of specs: its definitions, and where its other names come from."""

    def __init__(self, name):
        self.name, self.blocks, self.uses = name, {}, {}
        text = re.sub(r"--.*", "", (ROOT / "crates" / f"{name}.antt").read_text())
        lines = text.splitlines()
        for line in lines:
            use = re.match(r"(?:unfoldable |pub )*use (\S+)\.\{(.*)\}", line)
            for told in use[2].split(",") if use else ():
                given, _, own = told.strip().partition(" as ")
                self.uses[own or given] = (source_of(use[1]), given)
        block = None
        for line in lines:
            declared = re.match(r"\s*(?:(?:abbrev|unfoldable|pub|opaque) )*(?:record |data )?(" + WORD + ")", line)
            opens = re.match(r"\s*((abbrev|unfoldable|pub|opaque) )+(record |data )?" + WORD, line)
            field = block and line.startswith(block[1] + "  ")
            if re.match(r"\s*((unfoldable |pub )*use|module|open) ", line):
                block = None
            elif opens and not field:
                block = (declared[1], re.match(r"\s*", line)[0])
                self.blocks[declared[1]] = [line]
            elif block and line.strip():
                self.blocks[block[0]].append(line)
        for name_of, block_lines in list(self.blocks.items()):
            if re.search(r"\bdata ", block_lines[0]):
                for line in block_lines[1:]:
                    parts = re.match(r"\s+(?:pub )?((?:" + WORD + " )+):", line)
                    for part in parts[1].split() if parts else ():
                        self.uses.setdefault(part, (self.name, name_of))

    def words(self, name):
        return set(re.findall(WORD, "\n".join(self.blocks[name])))


def source_of(path):
    """The file of crates/ that a module is, `src:NAME` for a type that the code declares, none for the kit's."""
    parts = re.fullmatch(r"Rattle\.(\w+)\.specs\.(.*)", path)
    if not parts or not (ROOT / "crates" / parts[1]).is_dir():
        return None
    if parts[2].startswith("declared."):
        words = [word for word in parts[2].split(".")[1:] if word != "TheVariants"]
        return f"{parts[1]}/src:{words[-1]}"
    return f"{parts[1]}/specs/{parts[2].replace('.', '/')}"


class Specs(dict):
    def __missing__(self, name):
        if not (ROOT / "crates" / f"{name}.antt").exists():
            raise SystemExit(f"believed: no file crates/{name}.antt")
        self[name] = Spec(name)
        return self[name]


SPECS = Specs()


def declared_lines(source):
    crate, _, name = source.partition("/src:")
    for path in sorted((ROOT / "crates" / crate / "src").rglob("*.rt")):
        text = re.sub(r"//.*", "", path.read_text())
        found = re.search(r"\b(?:struct|enum) " + name + r" \{.*?\n\}", text, re.S)
        if found:
            return f"{crate}/src/{path.name}", len([line for line in found[0].splitlines() if line.strip()])
    raise SystemExit(f"believed: no struct or enum {name} in crates/{crate}/src")


def named(words):
    return [(file, name) for part in words.split() for file, names in [part.split(":")] for name in names.split(",")]


def pins(words):
    """What pins each definition."""
    found = {}
    for line in words.strip().splitlines():
        if line:
            what, _, by = line.partition(" ")
            found[tuple(what.split(":"))] = by
    return found


def closure(roots, pinned):
    """The definitions to be read: of each file, their names and lines. Takes what is not reached out of what is pinned."""
    found, todo, read, reached = set(), list(roots), defaultdict(dict), set()
    while todo:
        file, name = todo.pop()
        if (file, name) in pinned and (file, name) not in roots:
            reached.add((file, name))
            continue
        if (file, name) in found or file is None:
            continue
        found.add((file, name))
        if "/src:" in file:
            where, lines = declared_lines(file)
            read[where][file.partition(":")[2]] = lines
            continue
        spec = SPECS[file]
        if name not in spec.blocks:
            if name not in spec.uses:
                raise SystemExit(f"believed: no {name} in crates/{file}")
            todo.append(spec.uses[name])
            continue
        read[file][name] = len(spec.blocks[name])
        for word in sorted(spec.words(name)):
            if word in spec.blocks and word != name:
                todo.append((file, word))
            elif word in spec.uses and spec.uses[word] != (file, name):
                todo.append(spec.uses[word])
    for file, name in pinned.keys() - reached:
        if name not in SPECS[file].blocks:
            raise SystemExit(f"believed: no {name} in crates/{file}")
        del pinned[file, name]
    return read


def table():
    """A row a file, of what no row above it has."""
    yield "| to believe | read in crates/ | definitions | lines |\n|---|---|---|---|\n"
    seen = set()
    for demand, roots, pinned in DEMANDS:
        pinned = pins(pinned)
        read = closure(named(roots), pinned)
        fresh = {file: {n: k for n, k in names.items() if (file, n) not in seen} for file, names in read.items()}
        seen |= {(file, name) for file, names in read.items() for name in names}
        total, new = (sum(sum(names.values()) for names in part.values()) for part in (read, fresh))
        told = f"**{demand}**: {total} lines" + (f", {new} of them new" if new < total else "")
        order = [file for file, _ in named(roots)]
        for file in sorted(fresh, key=lambda file: (order.index(file) if file in order else len(order), file)):
            if fresh[file]:
                names = ", ".join(f"`{name}`" for name in sorted(fresh[file]))
                yield f"| {told} | {file} | {names} | {sum(fresh[file].values())} |\n"
                told = ""
        by = defaultdict(list)
        for (_, name), statement in pinned.items():
            by[statement].append(f"`{name}`")
        if told:
            yield f"| {told} | what stands above | | |\n"
        left = "; ".join(f"{', '.join(dict.fromkeys(names))} by {s if ' ' in s else f'`{s}`'}" for s, names in by.items())
        if left:
            yield f"| | pinned, and left out | {left} | |\n"


def main():
    made = "".join(table())
    text = PROOFS.read_text()
    before, _, rest = text.partition(BEGIN)
    _, _, after = rest.partition(END)
    if "--fix" in sys.argv:
        PROOFS.write_text(before + BEGIN + made + END + after)
    elif "--check" in sys.argv and before + BEGIN + made + END + after != text:
        sys.exit("believed: docs/PROOFS.md has another table of what is to be read; tests/documents/run --fix writes it")
    elif "--check" not in sys.argv:
        print(made, end="")


main()
