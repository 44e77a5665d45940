"""The words for a refusal: what is wrong on which sheet, and what to do. The proved program has refused; here its answer is looked up on the sheet.

A cause is named only where it is certain; what a value may be is not judged here but asked of the program."""
import re
from typing import NamedTuple

from words import ELEMENTS, EXCLUDED, FIELDS, MUST, TAKES, both, field, lines, quoted, visible

HEAD = ("MP", "P", "A", "O")
SPACES = b"\t\n\r "
MARK = b"\xef\xbb\xbf"  # the byte order mark in UTF-8
START = re.compile(rb"""<([A-Za-z0-9]+)((?:[^<>"']|"[^"]*"|'[^']*')*)>""")
ATTRIBUTE = re.compile(rb"""([A-Za-z0-9]+)[\t\n\r ]*=[\t\n\r ]*("[^"]*"|'[^']*')""")
REFERENCE = re.compile(r"&(?:#([0-9]+)|#x([0-9A-Fa-f]+)|(amp|lt|gt|quot|apos));")
NAMED = {"amp": "&", "lt": "<", "gt": ">", "quot": '"', "apos": "'"}
# a letter of two or three bytes in UTF-8, as it looks in Latin-1; a capital letter before a no-break space is none
GARBLED = re.compile(rb"[\xc2\xc3][\xa0-\xbf]|[\xc4-\xdf][\xa1-\xbf]|[\xe0-\xef][\xa0-\xbf]{2}")


class Sheet(NamedTuple):
    """A sheet as it was handed in: its number from 1 on, the name of its file, its bytes."""
    number: int
    name: str
    page: bytes


class Tag(NamedTuple):
    """A start tag: its place, its name, and its attributes, each a letter and a value that is decoded and cut."""
    place: int
    name: str
    attributes: list

    def value(self, letters):
        return dict(self.attributes).get(letters, "")


def decoded(raw):
    """A value as the plan has it. A reference to a number that no value may have stays as it is written."""
    def mark(match):
        decimal, hexadecimal, name = match.groups()
        if name:
            return NAMED[name]
        digits = (decimal or hexadecimal).lstrip("0") or "0"
        number = int(digits, 10 if decimal else 16) if len(digits) < 5 else 0
        return chr(number) if 32 <= number <= 126 or 160 <= number <= 255 else match.group()
    return REFERENCE.sub(mark, re.sub("\r\n|[\t\n\r]", " ", raw.decode("latin-1"))).rstrip(" ")


def tags(page):
    """The start tags of a well-formed page, in order."""
    return [Tag(start.start(), start[1].decode(), [(found[1].decode(), decoded(found[2][1:-1])) for found in ATTRIBUTE.finditer(start[2])])
            for start in START.finditer(page)]


def head(page):
    """The fields of the head by element and letters, as two sheets are compared; the page number is none of them."""
    values = {("MP", "p"): "0", ("MP", "l"): "de-DE", ("MP", "z"): "1"}
    values.update(((tag.name, letters), value) for tag in tags(page) if tag.name in HEAD for letters, value in tag.attributes if value)
    values["MP", "p"] = values["MP", "p"].lstrip("0") or "0"
    values.pop(("MP", "a"), None)
    return values


def numbered(page):
    """The page number on a sheet, and how many its print has."""
    top = tags(page)[0]
    return top.value("a") or "1", top.value("z") or "1"


def part(name):
    return both("field", name=ELEMENTS[name], letters=name)


def named(sheet):
    return both("sheet", number=sheet.number, name=visible(sheet.name))


def element(found, at):
    """An element in words: its kind; where a sheet may have several its count on the sheet; a medication's name."""
    tag = found[at]
    if tag.name == "W":
        owner = max(n for n in range(at) if found[n].name == "M")
        return both("part of", kind=ELEMENTS[tag.name], count=at - owner, whole=element(found, owner))
    count, called = "", ""
    if tag.name in ("S", "M", "R", "X"):
        count = f" {sum(one.name == tag.name for one in found[:at + 1])}"
    if tag.name == "M" and (tag.value("a") or tag.value("p")):
        called = tuple(" " + text for text in quoted(tag.value("a") or "PZN " + tag.value("p")))
    return both("element", kind=ELEMENTS[tag.name], count=count, called=called)


def is_utf8(content):
    try:
        return bool(content.decode("utf-8"))
    except UnicodeDecodeError:
        return False


def size_cause(page):
    """Why a page has a wrong size (2), where it has a usual cause; else nothing."""
    if not page:
        return "empty", None
    if page.count(b"<MP") > 1:
        return "several", None
    if is_utf8(page) and len(page.decode("utf-8")) <= 1400:
        return "UTF-8", None
    return None, None


def spelling_cause(number, page, place):
    """Why a page's bytes or spelling are refused (3 and 4), and what stands there, where it has a usual cause; else nothing."""
    begin, end = page.find(b"<MP"), re.search(rb"</MP[\t\n\r ]*>", page)
    before = page[:begin].strip(SPACES) if place < begin else b""
    behind = page[end.end():].strip(SPACES) if end and place >= end.end() else b""
    if number == 4 and place == len(page) and b"<" in page:
        return "cut off", None
    if begin < 0:
        return "no plan", None
    if before.startswith(MARK):
        return "byte order mark", None
    if before.startswith(b"<?xml"):
        return "declaration", None
    if before and b"<" not in before:
        return "prefix", before
    if behind.startswith(b"<MP"):
        return "several", None
    if behind:
        return "suffix", behind
    if number == 3 and page[place] >= 128 and is_utf8(page):
        return "UTF-8", None
    return None, None


def alien(found, at):
    """What does not belong at a tag (5)."""
    tag = found[at]
    if tag.name not in ELEMENTS:
        return [both("unknown element", text=quoted(tag.name))]
    letters = [one for one, _ in tag.attributes]
    unknown = [both("unknown field", element=ELEMENTS[tag.name], field=quoted(one)) for one in dict.fromkeys(letters) if one not in FIELDS[tag.name]]
    twice = [both("field twice", element=ELEMENTS[tag.name], field=field(tag.name, one)) for one in FIELDS[tag.name] if letters.count(one) > 1]
    return unknown + twice or [both("misplaced", field=part(tag.name))]


def wrong_values(sheet, found, at, judge):
    """The values of a tag that break their fields (7): those for which the program still refuses the tag when all its other values are empty."""
    tag, page = found[at], sheet.page
    close = START.match(page, tag.place).end()

    def breaks(*kept):
        kept += ("v",) if tag.name == "MP" else ()  # without its version a page is refused before its values are looked at
        emptied = ATTRIBUTE.sub(lambda one: one[0] if one[1].decode() in kept else one[1] + b'=""', page[tag.place:close])
        return judge(page[:tag.place] + emptied + page[close:]) == (7, 1, tag.place)

    here = element(found, at)
    wrong = [both("value", element=here, field=field(tag.name, letters), text=quoted(value), takes=TAKES.get((tag.name, letters), ""))
             for letters, value in tag.attributes if breaks(letters)]
    if not wrong and tag.name == "MP" and breaks("a", "z"):
        wrong = [both("above", element=here, a=tag.value("a"), z=tag.value("z"), field=field("MP", "a"), other=field("MP", "z"))]
    return wrong


def lacking(found, at):
    """What is missing at a tag or excludes each other there (8)."""
    tag = found[at]
    here, written, wrong = element(found, at), dict(tag.attributes), []
    for letters in MUST[tag.name]:
        if not tag.value(letters):
            wrong.append(both("missing field", element=here, field=field(tag.name, letters)))
    for pair in EXCLUDED.get(tag.name, []):
        one, other = pair.split()
        if one in written and other in written:
            wrong.append(both("pair", element=here, field=field(tag.name, one), text=quoted(written[one]),
                              other=field(tag.name, other), another=quoted(written[other])))
    if tag.name == "MP":
        for name in "P", "A":
            if name not in [one.name for one in found]:
                wrong.append(both("missing element", element=here, field=part(name)))
        for one, other in ("a", "z"), ("z", "a"):
            if tag.value(one) and not tag.value(other):
                wrong.append(both("alone", element=here, field=field("MP", one), text=quoted(tag.value(one)), other=field("MP", other)))
    if tag.name == "M" and not tag.value("p") and not tag.value("a") and [one.name for one in found[at + 1:at + 2]] != ["W"]:
        wrong.append(both("unnamed", element=here))
    return wrong


def differences(first, sheet):
    """The fields of the head in which a sheet differs from the first (9)."""
    ours, theirs = head(first.page), head(sheet.page)
    return [both("difference", element=ELEMENTS[key[0]], field=field(*key), text=quoted(ours.get(key)), another=quoted(theirs.get(key)), number=sheet.number)
            for key in [(kind, letters) for kind in HEAD for letters in FIELDS[kind]] if ours.get(key) != theirs.get(key)]


def reason(number, page, place, sheets, judge):
    """A refusal's reason and what to do, in both languages. `judge` asks the program about one page alone."""
    if number in (1, 12):
        return both(number)
    if number == 14:
        return both(14 if place else "long head", row=place, other_form=both("other form"))
    if number == 11:
        z = numbered(sheets[0].page)[1]
        here = [numbered(sheet.page)[0] for sheet in sheets]
        more = [str(n) for n in range(page + 1, int(z) + 1) if str(n) not in here]
        return both("many missing", missing=both("and", first=", ".join([str(page), *more[:-1]]), last=more[-1]), z=z) if more else both(11, missing=page, z=z)
    sheet = sheets[page - 1]
    again, issuer = both("again", number=page), both("issuer")
    values = {"sheet": named(sheet), "again": again, "issuer": issuer, "reprint": both("reprint", again=again, issuer=issuer)}
    if number in (2, 3, 4):
        cause, text = size_cause(sheet.page) if number == 2 else spelling_cause(number, sheet.page, place)
        there = sheet.page[place:place + 20]
        return both(cause or number, text=quoted((text or there).decode("latin-1")), latin=both("Latin-1"), unchanged=both("unchanged", number=page),
                    count=place + 1, byte=f"0x{there[0]:02X}" if there else "", **values)
    found = tags(sheet.page)
    if number == 9:
        return both(9, first=named(sheets[0]), details=lines(differences(sheets[0], sheet)), **values)
    if number == 10:
        a, z = numbered(sheet.page)
        other = next(one for one in sheets if numbered(one.page)[0] == a)
        same = other.page.strip(SPACES) == sheet.page.strip(SPACES)
        return both(10, other=named(other), a=a, z=z, details=both("same sheet" if same else "other sheet"), **values)
    at = next(n for n, tag in enumerate(found) if tag.place == place)
    if number == 6:
        return both(6, field=field("MP", "v"), text=quoted(found[at].value("v")), **values)
    details = {5: lambda: alien(found, at), 7: lambda: wrong_values(sheet, found, at, judge), 8: lambda: lacking(found, at)}[number]()
    return both(number, details=lines(details), **values)


def garbled(sheet):
    """The warning for a sheet with a value that looks like UTF-8 read as Latin-1; else nothing."""
    for tag in tags(sheet.page):
        for _, value in tag.attributes:
            content = value.encode("latin-1")
            if GARBLED.search(content) and is_utf8(content):
                return both("mixed up", sheet=named(sheet), text=quoted(value), another=quoted(content.decode("utf-8")), latin=both("Latin-1"),
                            again=both("again", number=sheet.number))
    return None
