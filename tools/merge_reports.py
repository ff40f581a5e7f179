#!/usr/bin/env python3
"""Merges reports of `jvm explore`, as of the parts into which `--split` divides an exploration.

Usage: merge_reports.py REPORT..

Each REPORT is a file with what `jvm explore` printed. An outcome that several of them have is told once, with the fewest turns
that any of them tells. Where two outcomes of one report read alike (they differ in which threads live), as many are told as the
report has that has most. The merged report is complete where all are; else it tells why the first was cut off that isn't. States
and turns are summed: a state that two parts come to is counted twice. Status 0 where it's complete, 4 where it's cut off, 2 where
a file is no report, 6 where one can't be read, 7 where none is named.
"""
import re
import sys

HOW, ENDS = rb"(finished|stuck|output limit|fault F\d+ in thread \d+)", rb"((?:thread \d+ ended by [^\n]*\n)*)"
HEAD = re.compile(rb"outcome (\d+): " + HOW + rb"\n" + ENDS + rb"turns (\d+)\noutput (\d+)\n")
LAST = re.compile(rb"explored (\d+) states, (\d+) turns: (complete|cut off: (?:states|memory|depth))\n")


def report_of(text):
    """The outcomes of a report, each how it reads with its turns, and its states, its turns and how it ended."""
    outcomes, at = [], 0
    while head := HEAD.match(text, at):
        number, how, ends, turns, size = head.groups()
        output = text[head.end():head.end() + int(size)]
        at = head.end() + int(size) + (output[-1:] not in (b"", b"\n"))
        if int(number) != len(outcomes) + 1 or len(output) != int(size):
            raise ValueError(f"outcome {number.decode()} is not told as the {len(outcomes) + 1}th")
        outcomes.append(((how, ends, output), int(turns)))
    last = LAST.fullmatch(text, at)
    if not last:
        raise ValueError("it doesn't end as a report does")
    return outcomes, int(last[1]), int(last[2]), last[3]


def merged(reports):
    """One report in place of several: its outcomes, its states, its turns and how it ended."""
    least, most, order = {}, {}, []
    for outcomes, _, _, _ in reports:
        counts = {}
        for outcome, turns in outcomes:
            counts[outcome] = counts.get(outcome, 0) + 1
            least[outcome] = min(turns, least.get(outcome, turns))
            if counts[outcome] > most.get(outcome, 0):
                most[outcome] = counts[outcome]
                order.append(outcome)
    how = next((how for *_, how in reports if how != b"complete"), b"complete")
    return [(it, least[it]) for it in order], sum(it[1] for it in reports), sum(it[2] for it in reports), how


def text_of(outcomes, states, turns, how):
    """The text of a report."""
    text = b""
    for number, ((stands, ends, output), needed) in enumerate(outcomes, 1):
        closing = b"" if output[-1:] in (b"", b"\n") else b"\n"
        text += b"outcome %d: %b\n%bturns %d\noutput %d\n%b%b" % (number, stands, ends, needed, len(output), output, closing)
    return text + b"explored %d states, %d turns: %b\n" % (states, turns, how)


def main():
    names = sys.argv[1:]
    if not names or names[0].startswith("-"):
        print(__doc__.strip())
        return 7
    reports = []
    for name in names:
        try:
            with open(name, "rb") as file:
                reports.append(report_of(file.read()))
        except OSError:
            print(f"merge_reports: cannot read {name}", file=sys.stderr)
            return 6
        except ValueError as wrong:
            print(f"merge_reports: {name}: {wrong}", file=sys.stderr)
            return 2
    whole = merged(reports)
    sys.stdout.buffer.write(text_of(*whole))
    return 0 if whole[3] == b"complete" else 4


if __name__ == "__main__":
    sys.exit(main())
