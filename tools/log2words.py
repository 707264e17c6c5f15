#!/usr/bin/env python3
"""log2words.py LOG.csv --case C --activity A (--time T | --order O | --as-written) [options] > LOG.words

Writes the runs of a CSV log as a word list, for `regions .. --from words`: each different run once, in the order of the file.
A run is the activities of one case. C, A, T and O name columns of the heading, as they are written there.

--time T         sorts the events of a case by the dates of column T, as 2026-11-30, 2026-11-30T09:40 or 2026-11-30 09:40:05.123+01:00
--time-format X  reads these dates by X in place, for example '%d.%m.%Y %H:%M' (the letters are those of Python's strptime)
--order O        sorts the events of a case by the numbers of column O
--as-written     keeps the events of a case in the order of the file
--separator S    the separator of the columns: `,` (default), `;` or `tab`
--encoding E     the encoding of the file: utf-8 (default, with or without a byte order mark), cp1252, ..
--no-heading     the first line is an event; C, A, T and O are numbers of columns, from 1
--min N          writes only the runs of N cases or more (default 1)

Events of a case with equal times keep the order of the file. An activity that is no label gets a label of its own: ä becomes ae,
other letters lose their accents, and what is left becomes _; a label that is taken gets _2, _3, .. at its end. No two activities
become one label. A remark `#name LABEL ACTIVITY` at the end keeps each activity that got one; examples/old-names.awk puts it back.

A line with a field more or less than the first line, an empty case or activity, and a date or number that can't be read are errors.
The last line on standard error counts cases, different runs and states. It needs Python 3.8 or later, and no library.

Exit status: 0  the word list is written
             1  the file can't be read, or has a fault: `FILE:LINE: why` on standard error, and nothing is written
             2  wrong arguments
"""
import argparse
import csv
import io
import re
import signal
import sys
import unicodedata
from collections import Counter
from datetime import datetime
from fractions import Fraction

SEPARATORS = {",": ",", ";": ";", "tab": "\t"}
LETTERS = str.maketrans({"ä": "ae", "ö": "oe", "ü": "ue", "Ä": "Ae", "Ö": "Oe", "Ü": "Ue", "ß": "ss"})
LABEL = re.compile(r"[A-Za-z0-9_]{1,255}")
LONGEST = 240  # of a label that is made of an activity, without the number at its end


class Fault(Exception):
    """A fault of the log, with the number of its line."""

    def __init__(self, line, why):
        super().__init__(why)
        self.line = line


def arguments_of(words):
    """Returns the arguments. Ends with status 2 if they are wrong."""
    if words in (["--help"], ["-h"]):
        print(__doc__)
        sys.exit(0)
    parser = argparse.ArgumentParser(prog="log2words.py", add_help=False, allow_abbrev=False, epilog="--help prints all of it")
    parser.add_argument("log")
    parser.add_argument("--case", required=True)
    parser.add_argument("--activity", required=True)
    order = parser.add_mutually_exclusive_group(required=True)
    order.add_argument("--time")
    order.add_argument("--order")
    order.add_argument("--as-written", action="store_true")
    parser.add_argument("--time-format")
    parser.add_argument("--separator", choices=SEPARATORS, default=",")
    parser.add_argument("--encoding", default="utf-8")
    parser.add_argument("--no-heading", action="store_true")
    parser.add_argument("--min", type=int, default=1)
    found = parser.parse_args(words)
    if found.time_format is not None and found.time is None:
        parser.error("--time-format needs --time")
    if found.min < 1:
        parser.error("--min is 1 or more")
    columns = [column for column in (found.case, found.activity, found.time, found.order) if column is not None]
    if found.no_heading and not all(re.fullmatch("[1-9][0-9]{0,5}", column) for column in columns):
        parser.error("with --no-heading the columns are numbers, from 1")
    try:
        b"".decode(found.encoding)
    except LookupError:
        parser.error("there is no encoding %s" % found.encoding)
    return found


# ---- the rows

def text_of(name, encoding):
    """Returns the text of the file. Raises `Fault` if it isn't of the encoding."""
    with open(name, "rb") as file:
        content = file.read()
    try:
        return content.decode("utf-8-sig" if encoding.lower() in ("utf-8", "utf8") else encoding)
    except UnicodeError as error:
        line = content.count(b"\n", 0, getattr(error, "start", 0)) + 1
        raise Fault(line, "a byte that isn't %s; --encoding names another encoding, for example cp1252" % encoding) from None


def rows_of(text, separator):
    """Returns each row that isn't empty, with the number of its first line. Raises `Fault` if quotes are wrong or the number of fields changes."""
    reader, rows, line = csv.reader(io.StringIO(text, newline=""), delimiter=separator, strict=True), [], 1
    try:
        for row in reader:
            if row and rows and len(row) != len(rows[0][1]):
                raise Fault(line, "the line has %d fields, and line %d has %d" % (len(row), rows[0][0], len(rows[0][1])))
            if row:
                rows.append((line, row))
            line = reader.line_num + 1
    except csv.Error as error:
        raise Fault(line, str(error)) from None
    return rows


def place_of(column, heading, line, numbers):
    """Returns the place of a column in a row, from 0. Raises `Fault` if there isn't one such column."""
    if numbers:
        if int(column) > len(heading):
            raise Fault(line, "no column %s; the line has %d fields" % (column, len(heading)))
        return int(column) - 1
    if heading.count(column) != 1:
        why = "two columns" if column in heading else "no column"
        raise Fault(line, "%s %r; the heading has %s (--separator names another separator)" % (why, column, ", ".join(map(repr, heading))))
    return heading.index(column)


# ---- the order of events

def date_of(text, form, line):
    """Returns the date. Raises `Fault` if the text isn't one."""
    try:
        return datetime.strptime(text, form) if form is not None else datetime.fromisoformat(re.sub(r"Z$", "+00:00", text))
    except ValueError:
        known = "of the form %r" % form if form is not None else "such as 2026-11-30T09:40 (--time-format names another form, --order takes numbers)"
        raise Fault(line, "%r is no date %s" % (text, known)) from None


def number_of(text, line):
    """Returns the number. Raises `Fault` if the text isn't one."""
    if not re.fullmatch(r"[-+]?[0-9]+([.][0-9]+)?", text):
        raise Fault(line, "%r is no number, such as 12 or 0.5" % text)
    return Fraction(text)


def events_of(rows, asked):
    """Returns the events in the order of the file: line, case, activity and what they are sorted by. Raises `Fault` at the first faulty one."""
    if not rows:
        raise Fault(1, "the file is empty")
    line, heading = rows[0]
    case, activity, time, order = (place_of(column, heading, line, asked.no_heading) if column is not None else None
                                   for column in (asked.case, asked.activity, asked.time, asked.order))
    events = []
    for line, row in rows if asked.no_heading else rows[1:]:
        for what, place in (("case", case), ("activity", activity)):
            if not row[place].strip():
                raise Fault(line, "the %s is empty" % what)
        key = 0
        if time is not None:
            key = date_of(row[time].strip(), asked.time_format, line)
            if events and (key.tzinfo is None) != (events[0][3].tzinfo is None):
                raise Fault(line, "%r: either all dates have a time zone, or none" % row[time])
        elif order is not None:
            key = number_of(row[order].strip(), line)
        events.append((line, row[case], row[activity], key))
    if not events:
        raise Fault(line, "there is no event after the heading")
    return events


# ---- runs and labels

def labels_of(activities):
    """Returns the label of each activity: itself if it is a label, else one that no other activity has."""
    labels = {activity: activity for activity in activities if LABEL.fullmatch(activity)}
    taken = set(labels)
    for activity in activities:
        if activity in labels:
            continue
        plain = unicodedata.normalize("NFKD", unicodedata.normalize("NFC", activity).translate(LETTERS))
        letters = "".join(c for c in plain if not unicodedata.combining(c))
        first = label = re.sub(r"[^A-Za-z0-9_]+", "_", letters)[:LONGEST]
        number = 1
        while label in taken:
            number += 1
            label = "%s_%d" % (first, number)
        taken.add(label)
        labels[activity] = label
    return labels


def runs_of(events, labels):
    """Returns the runs with the number of their cases, in the order in which the cases begin in the file."""
    cases = {}
    for _, case, activity, key in events:
        cases.setdefault(case, []).append((key, labels[activity]))
    return Counter(" ".join(label for _, label in sorted(case, key=lambda event: event[0])) for case in cases.values())


def states_of(runs):
    """Returns the number of states of the tree of prefixes."""
    prefixes = {()}
    for run in runs:
        labels = run.split(" ")
        prefixes.update(tuple(labels[:length]) for length in range(1, len(labels) + 1))
    return len(prefixes)


def words_of(kept, labels):
    """Returns the lines of the word list: the runs, then a remark for each label of them that isn't its activity."""
    used = {label for run in kept for label in run.split(" ")}
    remarks = ["#name %s %s" % (label, "".join(c if c.isprintable() else " " for c in activity))
               for activity, label in labels.items() if label != activity and label in used]
    return [*kept, *remarks]


def summary_of(runs, kept):
    """Returns the line that counts cases, different runs and states."""
    left_out = " (%d left out)" % (len(runs) - len(kept)) if len(kept) < len(runs) else ""
    return "cases %d, different runs %d%s, states %d" % (sum(runs.values()), len(runs), left_out, states_of(kept))


def main(words):
    asked = arguments_of(words)
    try:
        events = events_of(rows_of(text_of(asked.log, asked.encoding), SEPARATORS[asked.separator]), asked)
    except OSError as error:
        print("%s: %s" % (asked.log, error.strerror), file=sys.stderr)
        return 1
    except Fault as fault:
        print("%s:%d: %s" % (asked.log, fault.line, fault), file=sys.stderr)
        return 1
    labels = labels_of(list(dict.fromkeys(activity for _, _, activity, _ in events)))
    runs = runs_of(events, labels)
    kept = [run for run, cases in runs.items() if cases >= asked.min]
    if not kept:
        print("%s: no run has %d cases" % (asked.log, asked.min), file=sys.stderr)
        return 1
    sys.stdout.reconfigure(encoding="utf-8", newline="\n")
    print("\n".join(words_of(kept, labels)))
    print(summary_of(runs, kept), file=sys.stderr)
    return 0


if __name__ == "__main__":
    signal.signal(signal.SIGPIPE, signal.SIG_DFL)  # ends in silence if `head` closes the pipe
    sys.exit(main(sys.argv[1:]))
