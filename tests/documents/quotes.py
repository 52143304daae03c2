"""quotes: a sentence in quotation marks in a comment of the crates' specs is one of docs/CHART.md, whole or in parts. Words of
a listing (`chart 2`, `refused 1`) and a number in front of a row of the table are left out."""
import pathlib
import re
import sys

ROOT = pathlib.Path(__file__).resolve().parents[2]
LISTING = re.compile(r"(chart|complete|pair|steps|refused) ")


def plain(text):
    return " ".join(re.sub(r"[`*]", "", text).replace("|", " ").split()).lower()


def comments(text):
    """Each run of comment lines, as one line."""
    run = []
    for line in text.splitlines() + [""]:
        said = re.match(r"\s*-- ?(.*)", line)
        if said:
            run.append(said[1])
        elif run:
            yield " ".join(run)
            run = []


def parts(quote):
    """What stands between the gaps of a quotation, `..` and what is put in brackets."""
    for part in re.split(r"\.\.|\[[^]]*\]", quote):
        words = re.sub(r"^\d: ", "", plain(part).strip(" .,;:"))
        if len(words) > 3 and not LISTING.match(words + " "):
            yield words


CHART = plain((ROOT / "docs/CHART.md").read_text())
wrong = 0
for path in sorted((ROOT / "crates").glob("*/specs/**/*.antt")):
    for comment in comments(path.read_text()):
        for words in (words for quote in re.findall(r'"([^"]+)"', comment) for words in parts(quote)):
            if words not in CHART:
                wrong += 1
                print(f'quotes: {path.relative_to(ROOT)} quotes "{words}", which docs/CHART.md has not', file=sys.stderr)
sys.exit(1 if wrong else 0)
