"""For edits made by hand in a model: the smallest random chart on which something fails with each, and which edits a crate has."""
import random
from importlib import import_module
from pathlib import Path

random_chart = import_module("try").random_chart
CRATES = Path(__file__).resolve().parents[2] / "crates"


def size(chart):
    return chart.n, sum(abs(v) for s in chart.pieces for v in s.min + s.max)


def smallest(failure, charts, seed):
    """The smallest of so many charts of which `failure` tells something, and what it tells; or none."""
    rnd, found = random.Random(seed), None
    for _ in range(charts):
        chart = random_chart(rnd)
        if found and size(chart) >= size(found[0]):
            continue
        told = failure(chart)
        if told is not None:
            found = chart, told
    return found


def try_edits(crate, names, failure, charts, seed):
    """Prints what fails with each edit; whether some edit of the crate fails no chart or is not among the names."""
    wrong = sorted(p.stem for p in (CRATES / crate / "must-fail").glob("*.edit")) != sorted(names)
    for edit in names:
        found = smallest(lambda chart: failure(chart, edit), charts, seed)
        wrong = wrong or found is None
        told = "no chart fails"
        if found:
            pieces = " ".join(f"{s.min}-{s.max}:{s.min_in + 2 * s.max_in}" for s in found[0].pieces)
            told = f"{found[1]} on {pieces}"
        print(f"{edit}: {told}")
    return wrong
