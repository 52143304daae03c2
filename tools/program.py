"""Runs the proved chart program on a chart and reads its listing. The program has no exit status of its own and is silent
where its output is closed or full; here it writes to this tool alone, and a listing that is not whole is told."""
import os
import platform
import subprocess
from pathlib import Path

import formats
from formats import Wrong

ROOT = Path(__file__).resolve().parents[1]
SECONDS = 120


def listing_of(chart):
    command = command_of(os.environ.get("MIRTALUGHE_CHART"))
    try:
        listing = formats.listing_of_text(output(command, formats.file_of_chart(chart)))
        if listing.count != len(chart.pieces):
            raise Wrong(f"line 1: {listing.count} pieces of {len(chart.pieces)}")
    except Wrong as e:
        raise Wrong(f"the program {command[-1]}, {e}") from None
    return listing


def command_of(named):
    """The program that is named, or the one that was proved here; that is for x86-64, and elsewhere an emulator runs it."""
    if named:
        return [named]
    emulated = [] if platform.machine() == "x86_64" else [str(ROOT / "tests/x86_64/run")]
    return [*emulated, str(ROOT / "target/bin/chart")]


def output(command, data):
    """What the program prints of a chart file."""
    if not Path(command[-1]).is_file():
        raise Wrong("which lists the meetings, is not there: `make` proves and builds it")
    try:
        done = subprocess.run(command, input=data, capture_output=True, timeout=SECONDS)
    except subprocess.TimeoutExpired:
        raise Wrong(f"which lists the meetings, has not ended after {SECONDS} seconds") from None
    except OSError as e:
        raise Wrong(f"which lists the meetings, does not run: {e.strerror}") from None
    if done.returncode:
        raise Wrong(f"which lists the meetings, ended with status {done.returncode}")
    return done.stdout
