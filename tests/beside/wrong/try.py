#!/usr/bin/env python3
"""Shows that the comparison can fail: puts one wrong line at a time into a copy of what tests/beside/build laid out, and
holds that the comparison tells it, for the reason that the edit names.

usage: try.py [NAME..]    Tries the edits NAME.edit, or all; exits 1 if one goes unseen."""
import os
import shutil
import subprocess
import sys
from pathlib import Path

here = Path(__file__).resolve().parent
root = here.parents[2]
work = root / "target/wrong"
layout = work / "layout"
charts_of_each_temper, large_ones = "100", "10"


def fields(path):
    """An edit's lines `file:`, `old:`, `new:`, `told:`, after a comment."""
    lines = [line for line in path.read_text().splitlines() if line and not line.startswith("#")]
    return dict(line.split(": ", 1) for line in lines)


def build():
    env = os.environ | {"STATICLIB": str(root / "target/linked"), "CARGO_TARGET_DIR": str(work)}
    cargo = ["cargo", "build", "--quiet", "--release", "--offline", "--package", "compare"]
    subprocess.run(cargo, cwd=layout, env=env, check=True, capture_output=True, text=True)


def compare():
    program = [work / "release/compare", "long", "1", charts_of_each_temper, large_ones]
    return subprocess.run(program, capture_output=True, text=True)


def problem(path):
    """Why the edit does not show what it should, or None."""
    edit = fields(path)
    file = layout / edit["file"]
    sound = file.read_text()
    if sound.count(edit["old"]) != 1:
        return f"its old line stands {sound.count(edit['old'])} times in {edit['file']}"
    file.write_text(sound.replace(edit["old"], edit["new"]))
    try:
        build()
        run = compare()
    except subprocess.CalledProcessError as e:
        return "it does not build\n" + e.stderr
    finally:
        file.write_text(sound)
    if run.returncode == 0:
        return "the comparison does not see it"
    if edit["told"] not in run.stdout:
        return f"the comparison does not say `{edit['told']}`\n{run.stdout}"
    return None


def main():
    edits = [here / f"{name}.edit" for name in sys.argv[1:]] or sorted(here.glob("*.edit"))
    shutil.rmtree(layout, ignore_errors=True)
    shutil.copytree(root / "target/beside/layout", layout)
    build()
    if compare().returncode != 0:
        sys.exit("wrong: the comparison fails without any edit")
    failed = 0
    for path in edits:
        why = problem(path)
        failed += why is not None
        print(f"wrong: {path.stem}: {why or 'told'}", flush=True)
    print(f"wrong: {len(edits) - failed} told, {failed} not")
    sys.exit(failed > 0)


main()
