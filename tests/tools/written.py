"""Reads a line for each chart, as `compare written` prints them: the file that the library writes, in hexadecimal digits,
and the chart's numbers. What chart.py encodes of those numbers must be that file."""
import sys

from formats import chart_of_text, file_of_chart


def text_of(numbers):
    rows = (numbers[i : i + 5] for i in range(0, len(numbers), 5))
    return "".join(" ".join(row) + "\n" for row in rows).encode()


def main():
    count = 0
    for line in sys.stdin:
        file, *numbers = line.split()
        if file_of_chart(chart_of_text(text_of(numbers))) != bytes.fromhex(file):
            sys.exit(f"written: chart.py encodes {' '.join(numbers)} otherwise than the library writes it, {file}")
        count += 1
    print(f"written: {count} charts, each encoded as the library writes it")
    return 0 if count else "written: no chart was given"


if __name__ == "__main__":
    sys.exit(main())
