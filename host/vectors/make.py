#!/usr/bin/env python3
"""Chooses the vectors that the repository carries, and writes them in a form that can be read.

Usage: make.py BASE.TSV REQUEST-01.TSV REQUEST-02.TSV REQUEST-03.TSV REQUEST-04.TSV SHEETS.TSV INDEX.TSV CELLS.TSV

The base and requests 1 and 3 have one case a line: kind, pages, the output of planlist, and the fresh pages or a
refusal, which is refused:number:page:place in the base and !number.page.place in a request; bytes in hexadecimal
digits, pages with commas between them, "-" for an empty page. The base is document 01 alone, a request has what it asks
for and, as kind "base", more of document 01. The later file rules: a case of the base that request 1 may answer
otherwise is left out. Those of request 2 are: kind, pages, the index as built and the index asked with (pairs
number:row with commas between them, "-" for none), a number, k, what is answered of the number, and of its k-th row.
Those of request 4 are: kind, pages, row, field, which of three, the catalogue's text, and a refusal or else five more:
the cell's text, where it comes from, whether it is cut, whether 0 is printed, and how many bytes are left out.

The vectors, INDEX.TSV of request 2, CELLS.TSV of request 4 and SHEETS.TSV of the others, have the same columns and the
base's refusals, with printable ASCII bytes of a page or text as themselves and every other byte, and % and comma, as
%XX; a page or text without bytes is the empty text.
"""

import html
import re
import sys

# How many cases are taken of each file, and below how many bytes a case comes before the larger ones.
BASE_SHARE = (1600, 1100)
REQUEST_SHARE = (400, 0)
INDEX_SHARE = (400, 0)
CELLS_SHARE = (400, 0)

# Which columns hold bytes, as pages, a listing or a text.
SHEETS_BYTES = (1, 2, 3)
INDEX_BYTES = (1,)
CELLS_BYTES = (1, 5, 6)


def cases_of(path):
    """The cases of a file, with refusals as the base has them."""
    with open(path, encoding="ascii") as lines:
        cases = [line.rstrip("\n").split("\t") for line in lines if not line.startswith("#")]
    return [[re.sub(r"^!(\d+)\.(\d+)\.(\d+)$", r"refused:\1:\2:\3", column) for column in case] for case in cases]


def overruled(case):
    """Whether request 1 may answer a case of the base otherwise: it is refused with 7 at a P whose b ends with 00."""
    refused = re.match(r"refused:7:(\d+):(\d+)", case[3])
    if not refused:
        return False
    number, place = map(int, refused.groups())
    page = bytes.fromhex(case[1].split(",")[number - 1]).decode("latin-1")
    birth = re.match(r"""<P\s.*?\bb\s*=\s*(["'])(.*?)\1""", page[place:], re.DOTALL)
    return bool(birth) and html.unescape(birth[2]).rstrip().endswith("00")


def readable(digits):
    """The bytes that the hexadecimal digits stand for, in readable form."""
    bare = digits.replace("-", "")
    shown = (chr(byte) if 32 <= byte < 127 and byte not in b"%," else "%%%02X" % byte for byte in bytes.fromhex(bare))
    return "".join(shown)


def readable_pages(pages):
    """Pages, or one text, in readable form."""
    return ",".join(readable(page) for page in pages.split(","))


def line_of(case, bytes_at):
    """One case as a line of the vectors, with the columns that hold bytes in readable form."""
    columns = list(case)
    for place in bytes_at:
        if not case[place].startswith("refused:"):
            columns[place] = readable_pages(case[place])
    return "\t".join(columns)


def sheets_answer(case):
    """The number of the refusal, or the number of fresh pages for an accepted case."""
    fresh = case[3]
    if fresh.startswith("refused:"):
        return "refused " + fresh.split(":")[1]
    return "fresh %d" % (fresh.count(",") + 1)


def index_answer(case):
    """A refusal, absent, none, or a row; and whether more than one row holds the number."""
    first, row = case[6:]
    return (re.sub(r"^\d+$", "row", row), "," in first and not first.endswith(",1"))


def cells_answer(case):
    """The field, whose text is shown and both marks, or nothing of this if it is refused; and if the text is cut, how
    much of it is shown and whether a blank is the last of that."""
    text, cut = case[6], case[8:9] == ["1"]
    return (case[3], *case[7:10], *((len(text), text.endswith("20")) if cut else ()))


def chosen(cases, answer, bytes_at, wanted, small):
    """The lines of the chosen cases: two of each kind with each answer, then the small ones, then larger ones, each
    from all kinds and answers in turn."""
    groups = {}
    for place, case in enumerate(cases):
        groups.setdefault((case[0], answer(case)), []).append(place)
    turns = sorted((turn, place) for places in groups.values() for turn, place in enumerate(places))
    lines = [line_of(case, bytes_at) for case in cases]
    first = [place for turn, place in turns if turn < 2]
    smaller = [place for _, place in turns if len(lines[place]) < small]
    order = list(dict.fromkeys(first + smaller + [place for _, place in turns]))
    return [lines[place] for place in sorted(order[:wanted])]


def put(path, columns, lines):
    """Writes a file of vectors with a first line that names its columns."""
    with open(path, "w", encoding="ascii") as out:
        out.write("# kind\tpages, comma between\t" + columns + "; %XX is a byte in hexadecimal digits\n")
        out.writelines(line + "\n" for line in lines)


def main():
    """Reads the five files and writes the vectors."""
    base, birthdays, index, packages, cells, sheets_vectors, index_vectors, cells_vectors = sys.argv[1:]
    cases = [case for case in cases_of(base) if not overruled(case)]
    sheets = chosen(cases, sheets_answer, SHEETS_BYTES, *BASE_SHARE)
    for request in (birthdays, packages):
        cases = [case for case in cases_of(request) if case[0] != "base"]
        sheets += chosen(cases, sheets_answer, SHEETS_BYTES, *REQUEST_SHARE)
    put(sheets_vectors, "planlist's output\tfresh pages, comma between, or refused:number:page:place", sheets)
    columns = "index as built, number:row, comma between\tindex asked with\tnumber\tk\tfirst row,count or absent"
    columns += "\tk-th row, absent or none, or refused:number:page:place"
    put(index_vectors, columns, chosen(cases_of(index), index_answer, INDEX_BYTES, *INDEX_SHARE))
    columns = "row\tfield\twhich of three\tcatalogue's text\ttext, or refused:number:page:place and no more columns"
    columns += "\tplan, catalogue or none\tcut, 0 or 1\t0 is printed, 0 or 1\tbytes left out"
    put(cells_vectors, columns, chosen(cases_of(cells), cells_answer, CELLS_BYTES, *CELLS_SHARE))


main()
