"""header: one table of refusals, one set of sizes, one layout of each answer.

The refusals are those of docs/CHART.md: the header's enum with what it says of each, the Rust wrapper's enum and sentences, and
tools/formats.py have the same. The sizes are the header's: the wrapper, the tool, the comparison and docs/CHART.md have the
same. The calls are those of crates/chart_c/src/lib.rt, which crates/chart_c_c gives C, the structs those of the crates below:
the header and the wrapper have them field by field."""
import pathlib
import re
import sys

ROOT = pathlib.Path(__file__).resolve().parents[2]
sys.path.insert(0, str(ROOT / "tools"))
import formats  # noqa: E402

wrong = []


def text_of(name):
    return (ROOT / name).read_text()


def same(what, told, due):
    if told != due:
        wrong.append(f"{what}: {told!r} where {due!r} is due")


HEADER = text_of("crates/chart_c/include/mirtalughe.h")
CHART = text_of("docs/CHART.md")
WRAPPER = text_of("bindings/rust/src/lib.rs")


# ---- refusals


def chart_refusals():
    """number: name, given exactly when, place in a file, place in a list; as docs/CHART.md has them."""
    rows = re.findall(r"^\| (\d+) \| (.+?) \| (.+?) \| (.*?) ?\| (.*?) ?\|$", CHART, re.M)
    return {int(number): rest for number, *rest in rows}


def place_said(in_file, in_list):
    if in_file == in_list:
        return f"Place: {in_file}."
    parts = [f"in a file: {in_file}"] * bool(in_file) + [f"in a list: {in_list}"] * bool(in_list)
    return f"Place {'; '.join(parts)}."


def check_refusals():
    due = chart_refusals()
    same("docs/CHART.md, numbers", list(due), sorted(due))
    body = re.search(r"typedef enum \{(.*?)\} mirtalughe_refusal;", HEADER, re.S)[1]
    entries = re.findall(r"/\* (.*?) \*/\s*MIRTALUGHE_(\w+) = (\d+)", body, re.S)
    said = {int(number): (name, " ".join(comment.split())) for comment, name, number in entries}
    same("the header's numbers", list(said), list(due))
    for number, (name, when, in_file, in_list) in due.items():
        told = said.get(number, ("", ""))
        same(f"the header's name of {number}", told[0], name.upper().replace(" ", "_"))
        said_of = told[1].replace("MIRTALUGHE_MOST_PIECES", str(macros()["MOST_PIECES"]))
        same(f"the header on {number}", said_of, f"{when}. {place_said(in_file, in_list)}")
    refused = {number: row for number, row in due.items() if number}
    source = text_of("bindings/rust/src/refusal.rs")
    faults = {name: int(number) for name, number in re.findall(r"^  (\w+) = (\d+),$", source, re.M)}
    whole = re.sub(r'concat!\("(.*?)", env!\("MIRTALUGHE_(\w+)"\)\)', lambda m: f'"{m[1]}{macros()[m[2]]}"', source)
    meanings = dict(re.findall(r'Fault::(\w+) => "(.*?)",$', whole, re.M))
    same("the wrapper's faults", faults, {camel(row[0]): number for number, row in refused.items()})
    same("the wrapper's meanings", meanings, {camel(row[0]): row[1] for row in refused.values()})
    every = re.search(r"ALL: \[Fault; (\d+)\] = \[(.*?)\];", source, re.S)
    same("the wrapper's list of all", re.findall(r"Fault::(\w+)", every[2]), [camel(row[0]) for row in refused.values()])
    same("tools/formats.py", formats.REFUSALS, {number: row[1] for number, row in refused.items()})


def camel(name):
    return "".join(word.capitalize() for word in name.split())


# ---- sizes


def macros():
    """The header's macros for numbers, worked out."""
    found = {}
    for name, argument, body in re.findall(r"^#define MIRTALUGHE_(\w+)(\(n\))? ([^\"\n]+)$", HEADER, re.M):
        body = body.split("/*")[0].strip().replace("MIRTALUGHE_", "").replace("/", "//")
        found[name] = eval(f"lambda n: {body}" if argument else body, {}, found)
    return found


def rust_constants(source):
    found = {}
    for name, body in re.findall(r"^pub const (\w+): \w+ = (.+);$", source, re.M):
        plain = re.sub(r'number\(env!\("MIRTALUGHE_(\w+)"\)\)(?: as i32)?', lambda m: str(macros()[m[1]]), body)
        found[name] = eval(plain.replace("/", "//"), {"pairs_room": lambda n: n * max(n - 1, 0)}, found)
    return found


def check_sizes():
    due = macros()
    same("MIRTALUGHE_PAIRS_ROOM", [due["PAIRS_ROOM"](n) for n in (0, 1, 2, 3)], [0, 0, 2, 6])
    for name, told in rust_constants(WRAPPER).items():
        same(f"{name} of the wrapper", told, due.get(name))
    compared = rust_constants(text_of("tests/beside/compare/src/answers.rs"))
    same("the comparison's sizes", compared, {name: due[name] for name in ("LIMIT", "MOST_PIECES")})
    same("tools/formats.py, MOST_PIECES", formats.MOST_PIECES, due["MOST_PIECES"])
    same("tools/formats.py, LIMIT", formats.LIMIT, due["LIMIT"])
    same("tools/formats.py, a piece", len(formats.NUMBERS), due["PIECE_NUMBERS"])
    for sentence in (
        f"Up to {due['MOST_PIECES']:,} pieces",
        f"count above {due['MOST_PIECES']:,}",
        f"from -{due['LIMIT']:,} to {due['LIMIT']:,}",
        f"The longest file has {due['LONGEST_FILE']:,} bytes",
        f"under {due['LIST_ROOM']:,} numbers lent",
    ):
        same("docs/CHART.md has a sentence", sentence in CHART and sentence, sentence)
    told = re.findall(r"up to ([\d,]+) pieces", text_of("README.md"))
    same("README.md, up to how many pieces", told, [f"{due['MOST_PIECES']:,}"])
    version = re.search(r'MIRTALUGHE_VERSION "(.*?)"', HEADER)[1]
    same("the header's version", ".".join(str(due[f"VERSION_{part}"]) for part in ("MAJOR", "MINOR", "PATCH")), version)
    same("the newest version of CHANGES.md", re.search(r"^## (\d+\.\d+\.\d+)", text_of("CHANGES.md"), re.M)[1], version)
    same("the wrapper's version", re.search(r'^version = "(.*?)"', text_of("bindings/rust/Cargo.toml"), re.M)[1], version)


# ---- structs and calls: a struct is its fields, a call its parameters and what it returns, all in Rust's types

IN_RUST = {
    "uint8_t": "u8", "uint32_t": "u32", "uint64_t": "u64", "size_t": "usize", "int8_t": "i8", "int16_t": "i16",
    "int32_t": "i32", "int64_t": "i64", "double": "f64", "bool": "bool",
}  # fmt: skip


def header_layout():
    structs, text = {}, re.sub(r"/\*.*?\*/", "", HEADER, flags=re.S)

    def rust(words):
        *const, plain = words.replace("*", "").split()
        if "*" in words:
            return f"*{'const' if const else 'mut'} {IN_RUST[plain]}"
        return IN_RUST[plain] if plain in IN_RUST else structs[plain]

    for body, name in re.findall(r"typedef struct \{(.*?)\} (\w+);", text, re.S):
        fields = re.findall(r"(\w+) ([\w, ]+);", body)
        structs[name] = [(field, rust(kind)) for kind, names in fields for field in names.split(", ")]
    calls = {}
    for answer, name, given in re.findall(r"^(\w+) (mirtalughe_\w+)\((.*?)\);", text, re.M | re.S):
        parameters = [re.match(r"(.*?)(\w+)$", p.strip()).groups() for p in given.split(",")]
        calls[name] = [(n, rust(kind)) for kind, n in parameters], rust(answer)
    return calls


def rust_layout(*sources):
    """The calls of Rust or Rattle text. A slice is a pointer and a length, whatever the length is called."""
    text = re.sub(r"//.*", "", "\n".join(sources))
    bodies = dict(re.findall(r"#\[repr\(C\)\]\s*(?:#\[derive\([\w, ]+\)\]\s*)?(?:pub )?struct (\w+) \{(.*?)\n\}", text, re.S))

    def kind(word):
        if word not in bodies:
            return word
        fields = re.findall(r"(?:pub )?(\w+): ([^,]+),", bodies[word] + ",")
        return [(name, kind(told.strip())) for name, told in fields]

    calls = {}
    for name, given, answer in re.findall(r"fn (mirtalughe_\w+)\((.*?)\)\s*-> (\w+)", text, re.S):
        parameters = []
        for parameter in filter(None, (p.strip() for p in given.split(","))):
            word, told = parameter.split(": ")
            slice_of = re.fullmatch(r"&(mut )?\[(\w+)\]", told)
            if slice_of:
                parameters += [(word, f"*{'mut' if slice_of[1] else 'const'} {slice_of[2]}"), ("", "usize")]
            else:
                parameters.append((word, told))
        calls[name] = parameters, kind(answer)
    return calls


def check_layout():
    due = header_layout()
    below = [text_of(f"crates/{name}/src/lib.rt") for name in ("c_records", "charts", "open_chart")]
    proved = [f"crates/{name}/src/lib.rt" for name in ("chart_c", "chart_c_c")]
    all_told = [(name, rust_layout(text_of(name), *below)) for name in proved]
    for who, told in (*all_told, ("the wrapper", rust_layout(text_of("bindings/rust/src/calls.rs")))):
        same(f"{who}, calls", sorted(told), sorted(due))
        for name in told.keys() & due.keys():
            for (parameter, kind), (due_parameter, due_kind) in zip(told[name][0], due[name][0]):
                same(f"{who}, {name}, {due_parameter}", (parameter or due_parameter, kind), (due_parameter, due_kind))
            same(f"{who}, {name}, parameters", len(told[name][0]), len(due[name][0]))
            same(f"{who}, {name}, answer", told[name][1], due[name][1])


check_refusals()
check_sizes()
check_layout()
for line in wrong:
    print(f"header: {line}", file=sys.stderr)
sys.exit(1 if wrong else 0)
