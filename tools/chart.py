#!/usr/bin/env python3
"""Readable charts: what meets on them, pictures, pages and chart files.

  chart.py list [--speed A B] [--json | --csv] [TEXT]
                                                the meetings of a readable chart with the pieces' names, by speed; all of
                                                them or those between two speeds; as a table or for other tools
  chart.py page TEXT.. PAGE                     one HTML page of one readable chart or several, for a browser or a printer
  chart.py draw TEXT [LISTING [PICTURE]]        a readable chart and what the program `chart` lists of it become an SVG
  chart.py encode [TEXT [FILE]]                 a readable chart becomes a chart file
  chart.py decode [FILE [TEXT]]                 and back
  chart.py fold m H S [NAME]                    the pieces of m times x folded at 0 and H, from x = 0 to S, as lines of
                                                a readable chart, each with the name
  chart.py pairs [TEXT [FILE]]                  a supplier's list, two numbers a line, becomes bytes, two a pair
  chart.py region TEXT [ANSWERS [PICTURE]]      an outline, peaks and what examples/region.c answers of them become an SVG
  chart.py tell TEXT PAIRS [ANSWER]             what examples/check.c answers of a readable chart's file and such bytes,
                                                in a sentence with the pieces' names

A name left out or - is standard input or output. A readable chart has a line for each piece, `kind x1 y1 x2 y2`; what
follows # is a comment. A comment after a piece is its name; comments `# title: ..`, `# across: ..` and `# up: ..` are the
chart's title and what its axes show. `list` and `page` run the proved program target/bin/chart, or the one
that MIRTALUGHE_CHART names. A page's name ends in .html, so that no text is written over.

The status is 0 where all went well, 1 where something given is wrong or a stream is closed or full, which is told, and 2
where these words were not understood."""
import sys

import drawing
import folding
import formats
import meetings
import page
import program
import regions
import supplied
from streams import first, say, shown, write


class Usage(Exception):
    """The words of the command are not understood."""


def main(words):
    command, *names = words or [""]
    if command in ("help", "--help", "-h"):
        return write("-", f"{__doc__}\n".encode())
    if command == "list":
        return write("-", listed(*list_words(names)))
    if command == "page" and len(names) >= 2 and (names[-1] == "-" or names[-1].endswith(".html")):
        return write(names[-1], paged(names[:-1]))
    if command in ("encode", "decode") and len(names) <= 2:
        turn = encoded if command == "encode" else decoded
        given, made = (names + ["-", "-"])[:2]
        return write(made, turn(given))
    if command == "draw" and 1 <= len(names) <= 3:
        source, listing, made = (names + ["-", "-"])[:3]
        return write(made, drawn(source, listing))
    if command == "fold" and 3 <= len(names) <= 4:
        return write("-", folding.text(*names))
    if command == "region" and 1 <= len(names) <= 3:
        source, answers, made = (names + ["-", "-"])[:3]
        return write(made, located(source, answers))
    if command == "pairs" and len(names) <= 2:
        given, made = (names + ["-", "-"])[:2]
        return write(made, read(given, supplied.bytes_of_text))
    if command == "tell" and 2 <= len(names) <= 3:
        source, pairs, answer = (names + ["-"])[:3]
        return write("-", told(source, pairs, answer))
    raise Usage(__doc__)


def list_words(words):
    """The text's name, the form and the two speeds or none."""
    names, form, between, words = [], meetings.table, None, list(words)
    while words:
        word = words.pop(0)
        if word == "--speed":
            between, words = [formats.whole(speed) for speed in words[:2]], words[2:]
            if len(between) != 2 or None in between or between[0] > between[1]:
                raise Usage("chart.py: --speed takes two whole numbers, the lesser first")
        elif word in meetings.FORMS and form is meetings.table:
            form = meetings.FORMS[word]
        elif word.startswith("--") or names:
            raise Usage(__doc__)
        else:
            names.append(word)
    return (names or ["-"])[0], form, between


def listed(source, form, between):
    chart = read(source, formats.chart_of_text)
    listing = program.listing_of(chart)
    if not listing.complete:
        say(f"chart.py: {shown(source)}: {meetings.NOT_COMPLETE}")
    return form(chart, listing, between)


def paged(sources):
    charts = [read(source, formats.chart_of_text) for source in sources]
    return page.page([(source, chart, program.listing_of(chart)) for source, chart in zip(sources, charts)])


def encoded(name):
    return formats.file_of_chart(read(name, formats.chart_of_text))


def decoded(name):
    return formats.text_of_chart(read(name, formats.chart_of_file, formats.LONGEST_FILE + 1))


def drawn(source, listing):
    chart = read(source, formats.chart_of_text)
    listed = read(listing, formats.listing_of_text)
    if listed.count != len(chart.pieces):
        counts = f"{listed.count} pieces, but {shown(source)} has {len(chart.pieces)}"
        raise formats.Wrong(f"{shown(listing)}, line 1: {counts}")
    return drawing.picture(chart, listed)


def located(source, answers):
    region, said = read(source, regions.of_text), read(answers, regions.answers_of_text)
    if len(said) != len(region.peaks):
        raise formats.Wrong(f"{shown(answers)}: {len(said)} answers, but {shown(source)} has {len(region.peaks)} peaks")
    return regions.picture(region, said)


def told(source, pairs, answer):
    chart, named = read(source, formats.chart_of_text), read(pairs, supplied.bytes_of_pairs)
    return read(answer, lambda data: f"{supplied.sentence(chart, named, data)}\n".encode())


def read(name, form, most=formats.MOST_TEXT + 1):
    """What the form makes of a file's bytes, of so many at most. A fault is told with the file's name."""
    data = first(name, most)
    try:
        return form(data)
    except formats.Wrong as e:
        raise formats.Wrong(f"{shown(name)}, {e}") from None


if __name__ == "__main__":
    try:
        sys.exit(main(sys.argv[1:]))
    except Usage as e:
        say(e)
        sys.exit(2)
    except formats.Wrong as e:
        sys.exit(f"chart.py: {e}")
    except KeyboardInterrupt:
        sys.exit(130)
