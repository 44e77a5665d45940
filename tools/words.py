"""Every word that the script tollgilt says, in German and in English, and the names of the elements and fields of a sheet.

A message is a pair: its German text, its English one. {name} in it is a value of the message, which may be such a pair itself."""

# the elements of a sheet
ELEMENTS = {
    "MP": ("Kopf des Blatts", "head of the sheet"), "P": ("Patient", "patient"), "A": ("Aussteller", "issuer"),
    "O": ("Zusatzangaben zum Patienten", "further details of the patient"), "S": ("Abschnitt", "section"), "M": ("Medikament", "medication"),
    "W": ("Wirkstoff", "substance"), "R": ("Rezeptur", "recipe"), "X": ("Freitextzeile", "note"),
}

# the fields of each element: letters ("*" behind those that must be there), German name, English name
TABLE = {
    "MP": "v*|Version|version; p|Patch|patch; U*|Instanz-ID|identifier; l|Sprache|language; a|Seitenzahl|page number; z|Gesamtseitenzahl|number of pages",
    "P": "g*|Vorname|first name; f*|Nachname|last name; b*|Geburtsdatum|date of birth; s|Geschlecht|sex; egk|Versicherten-ID|insurance number;"
         "t|Titel|title; v|Vorsatzwort|prefix of the name; z|Namenszusatz|suffix of the name",
    "A": "lanr|Arztnummer (LANR)|physician's number (LANR); idf|Apotheken-IDF|pharmacy's number (IDF); kik|Krankenhaus-IK|hospital's number (IK);"
         "n*|Name|name; s|Straße|street; z|Postleitzahl|postal code; c|Ort|town; p|Telefon|telephone; e|E-Mail|e-mail; t*|ausgedruckt am|time of printing",
    "O": "ai|Allergien und Unverträglichkeiten|allergies and intolerances; w|Gewicht|weight; h|Größe|height; c|Kreatinin|creatinine; p|schwanger|pregnant;"
         "b|stillend|breastfeeding; x|Parameter|parameters",
    "S": "c|Zwischenüberschrift (Code)|heading (code); t|Zwischenüberschrift (Freitext)|heading (free text)",
    "M": "p|PZN|package number (PZN); a|Handelsname|trade name; f|Form (Code)|form (code); fd|Form (Freitext)|form (free text); m|morgens|morning;"
         "d|mittags|noon; v|abends|evening; h|zur Nacht|night; t|Dosierung (Freitext)|dose (free text); du|Einheit (Code)|unit (code);"
         "dud|Einheit (Freitext)|unit (free text); i|Hinweise|hints; r|Grund|reason; x|Zusatzzeile|bound line",
    "W": "w*|Name|name; s|Stärke|strength",
    "R": "t*|Text|text; x|Zusatzzeile|bound line",
    "X": "t*|Text|text",
}
TABLE = {element: [entry.strip().split("|") for entry in fields.split(";")] for element, fields in TABLE.items()}
FIELDS = {element: {letters.rstrip("*"): (german, english) for letters, german, english in fields} for element, fields in TABLE.items()}
MUST = {element: [letters[:-1] for letters, *_ in fields if letters.endswith("*")] for element, fields in TABLE.items()}

# fields that exclude each other
EXCLUDED = {"A": ["lanr idf", "lanr kik", "idf kik"], "S": ["c t"], "M": ["f fd", "m t", "d t", "v t", "h t", "du dud"]}

# what a field takes, said beside a value that it does not take
TAKES = {
    ("P", "b"): (" (erlaubt: JJJJMMTT nach 18750101; Tag unbekannt: JJJJMM00; Tag und Monat unbekannt: JJJJ0000; Jahr ab 1875)",
                 " (allowed: YYYYMMDD after 18750101; day unknown: YYYYMM00; day and month unknown: YYYY0000; year from 1875 on)"),
}

USAGE = ("tollgilt [--table | --html DATEI | --fresh ORDNER | --find PZN] [--catalogue DATEI] BLATT...",
         "tollgilt [--table | --html FILE | --fresh DIR | --find NUMBER] [--catalogue FILE] SHEET...")

HELP = """\
{usage[0]}

Liest ein bis neun Blätter, fügt sie zum Medikationsplan zusammen und gibt ihn
aus. BLATT ist eine Datei mit dem Inhalt eines Barcodes, so wie der Scanner ihn
liefert: für jedes Blatt eine eigene Datei. Ihre Reihenfolge spielt keine Rolle.

  --table         der Plan als Tabelle
  --html DATEI    der Plan als Seite zum Ansehen und Drucken im Browser
  --fresh ORDNER  der Plan neu geschrieben, auf so wenige Blätter wie möglich:
                  ORDNER/sheet-1.xml und so weiter
  --find PZN      nur die Zeilen des Plans mit dieser PZN, als Tabelle. PZN wie
                  auf der Packung: ein bis acht Ziffern, mit oder ohne Nullen am
                  Anfang, auch "PZN-02394428", "PZN 02394428" und "-02394428"
  --catalogue DATEI
                  zu --table, --html oder --find: Namen, Formen, Wirkstoffe und
                  Stärken, die der Plan nicht nennt, aus diesem Katalog
  (ohne Option)   der Plan als Zeilen Feld=Wert, in Latin-1 wie die Blätter;
                  auf einem Terminal mit UTF-8 in UTF-8
  --help          dieser Text

Zum Beispiel: tollgilt --table blatt-1.xml blatt-2.xml

--html und --fresh überschreiben keine Datei und nennen die, die sie schreiben;
fehlt der ORDNER, legt --fresh ihn an. Sind die Blätter kein Plan, so sagt eine
Meldung, warum nicht und was zu tun ist. Ihre letzte Zeile ist für Rückfragen:
die Nummer der Ablehnung, das Blatt, gezählt von 1 an (bei 11 die Seite, die
fehlt), und die Stelle darin, gezählt von 0 an (bei 14 die Zeile des Plans,
gezählt von 1 an).

--find sagt zuerst, in wie vielen Zeilen die PZN steht; über jeder steht ihre
Nummer, gezählt von 1 an. Steht die PZN nicht auf dem Plan, so sagt das eine
Meldung; die Prüfziffer wird dabei nicht beurteilt.

Der Katalog von --catalogue ist eine Textdatei in UTF-8 oder Latin-1 mit einer
Zeile je Packung. Ihre Spalten trennt ein Tabulator: PZN, Handelsname, Form und
bis zu drei Paare aus Wirkstoff und Stärke; sie dürfen leer sein und am Ende
fehlen. Was der Plan selbst nennt, bleibt stehen. Nennt er einen anderen
Wirkstoff als der Katalog, so gelten nur seine Wirkstoffe und Stärken. Was für
sein Feld zu lang ist, wird gekürzt: "... +12" heißt, dass 12 Zeichen fehlen.

Exit-Status: 0 ein Plan, 1 kein Plan, 2 falsch aufgerufen, 3 etwas lässt sich
nicht lesen, schreiben oder ausführen, 4 die PZN steht nicht auf dem Plan.

----------------------------------- English -----------------------------------

{usage[1]}

Reads one to nine sheets, joins them into the medication plan and prints it.
SHEET is a file with what one barcode holds, as the scanner gives it: a file of
its own for each sheet. Their order does not matter.

  --table         the plan as a table
  --html FILE     the plan as a page to look at and to print with a browser
  --fresh DIR     the plan written afresh, on as few sheets as can hold it:
                  DIR/sheet-1.xml and so on
  --find NUMBER   only the rows of the plan with this package number (PZN), as a
                  table. NUMBER as on the box: one to eight digits, with or
                  without zeros at the beginning, also "PZN-02394428",
                  "PZN 02394428" and "-02394428"
  --catalogue FILE
                  with --table, --html or --find: names, forms, substances and
                  strengths that the plan does not name, from this catalogue
  (no option)     the plan as key=value lines, in Latin-1 like the sheets;
                  on a terminal with UTF-8 in UTF-8
  --help          this text

For example: tollgilt --table sheet-1.xml sheet-2.xml

--html and --fresh overwrite no file and name those that they write; --fresh
makes the folder DIR where it is missing. Where the sheets are no plan, a
message says why not and what to do. Its last line is for questions: the number
of the refusal, the sheet counted from 1 (at 11 the page that is missing), and
the place in it counted from 0 (at 14 the plan's row counted from 1).

--find says first how many rows have the number; above each stands which row it
is, counted from 1. Where the number is not on the plan, a message says so; its
check digit is not judged.

The catalogue of --catalogue is a text file in UTF-8 or Latin-1 with one line to
a package. A tab parts its columns: package number, trade name, form and up to
three pairs of substance and strength; they may be empty, and missing at the
end. What the plan itself names stays. Where it names another substance than the
catalogue, its own substances and strengths alone count. What is too long for
its field is cut: "... +12" says that 12 characters are missing.

Exit status: 0 a plan, 1 no plan, 2 bad use, 3 something cannot be read, written
or run, 4 the number is not on the plan.
""".format(usage=USAGE)

WORDS = {
    # parts of messages
    "quoted": ("„{text}“", '"{text}"'),
    "broken": ("„{text}“ (~ ist ein Zeilenumbruch)", '"{text}" (~ is a line break)'),
    "nothing": ("(nichts)", "(nothing)"),
    "sheet": ("Blatt {number} ({name})", "sheet {number} ({name})"),
    "again": ("Blatt {number} noch einmal scannen.", "Scan sheet {number} once more."),
    "issuer": ("Den Plan beim Aussteller (Praxis, Apotheke oder Klinik) neu ausdrucken lassen.", "Ask the issuer (surgery, pharmacy or hospital) for a new print."),
    "reprint": ("{again} Hilft das nicht: {issuer}", "{again} If that does not help: {issuer}"),
    "Latin-1": ("Den Scanner oder das Scan-Programm auf Latin-1 (ISO 8859-1) stellen.", "Set the scanner, or its program, to Latin-1 (ISO 8859-1)."),
    "unchanged": ("Blatt {number} noch einmal scannen und die Datei unverändert lassen.", "Scan sheet {number} once more and leave the file as it is."),
    "support": ("Bitte die EDV-Betreuung fragen.", "Please ask your technical support."),
    "element": ("{kind}{count}{called}", "{kind}{count}{called}"),
    "part of": ("{kind} {count} in {whole}", "{kind} {count} in {whole}"),
    "and": ("{first} und {last}", "{first} and {last}"),
    "field": ("„{name}“ ({letters})", '"{name}" ({letters})'),

    # bad use
    "usage": ("{problem}\nAufruf: {usage}   (Hilfe: tollgilt --help)", "{problem}\nUsage: {usage}   (help: tollgilt --help)"),
    "no sheet": ("Es ist kein Blatt angegeben.", "no sheet is named."),
    "too many": ("{count} Blätter sind angegeben, aber ein Plan hat höchstens neun.", "{count} sheets are named, but a plan has at most nine."),
    "unknown option": ("Diese Option gibt es nicht: {name}", "no such option: {name}"),
    "nameless": ("Hinter {option} fehlt der Name.", "no name behind {option}."),
    "twice": ("{option} steht zweimal da.", "{option} is there twice."),
    "no number": ("Hinter --find steht keine PZN (ein bis acht Ziffern, auch mit „PZN-“, „PZN “ oder „-“ davor): {text}",
                  'no package number behind --find (one to eight digits, also with "PZN-", "PZN " or "-" before them): {text}'),
    "one form": ("Von --table, --html, --fresh und --find geht immer nur eines.", "of --table, --html, --fresh and --find only one can be had."),
    "catalogue alone": ("--catalogue geht nur zusammen mit --table, --html oder --find.", "--catalogue goes only with --table, --html or --find."),
    "folder for a catalogue": ("Das ist ein Ordner, kein Katalog: {name}", "a folder, not a catalogue: {name}"),
    "UTF-16 catalogue": ("Der Katalog ist in Unicode (UTF-16) gespeichert: {name}\nAls Text in UTF-8 speichern, mit Tabulatoren zwischen den Spalten.",
                         "the catalogue is saved as Unicode (UTF-16): {name}\nSave it as text in UTF-8, with tabs between the columns."),
    "catalogue line": ("Katalog {name}, Zeile {line}: {problem}", "catalogue {name}, line {line}: {problem}"),
    "long line": ("Sie ist viel zu lang.", "it is much too long."),
    "strange": ("Das Zeichen {text} kann in keinem Namen eines Medikationsplans stehen.", "no name on a medication plan can have the character {text}."),
    "no package": ("Am Anfang steht keine PZN: {text}", "there is no package number at its beginning: {text}"),
    "many columns": ("Sie hat mehr als neun Spalten.", "it has more than nine columns."),
    "long text": ("Ein Text hat mehr als 1.000 Zeichen: {text}", "a text has more than 1,000 characters: {text}"),
    "package twice": ("Die PZN {number} steht schon in Zeile {line}.", "the package number {number} is already in line {line}."),
    "no file": ("Diese Datei gibt es nicht: {name}", "no such file: {name}"),
    "folder": ("Das ist ein Ordner, kein Blatt: {name}", "a folder, not a sheet: {name}"),
    "zero": ("Das ist kein einzelnes Blatt (die Datei enthält ein Null-Byte): {name}\nJedes Blatt in eine eigene Datei scannen.",
             "not one sheet (the file holds a zero byte): {name}\nScan each sheet into a file of its own."),
    "UTF-16": ("Die Datei ist in Unicode (UTF-16) gespeichert, nicht in Latin-1 wie ein Barcode: {name}\n{latin} Dann das Blatt noch einmal scannen.",
               "the file is saved as Unicode (UTF-16), not in Latin-1 as a barcode is: {name}\n{latin} Then scan the sheet once more."),
    "no folder": ("Diesen Ordner gibt es nicht: {name}", "no such folder: {name}"),
    "not a folder": ("Das ist kein Ordner: {name}", "not a folder: {name}"),
    "there": ("Das gibt es schon, und es wird nicht überschrieben: {name}\nBitte einen anderen Namen wählen.",
              "there already, and not overwritten: {name}\nPlease choose another name."),

    # what was found
    "held once": ("Die PZN {number} steht in einer Zeile des Plans.", "The package number {number} is in one row of the plan."),
    "held": ("Die PZN {number} steht in {count} Zeilen des Plans.", "The package number {number} is in {count} rows of the plan."),
    "not held": ("Die PZN {number} steht nicht auf dem Plan.", "the package number {number} is not on the plan."),

    # what cannot be read, written or run
    "unreadable": ("Die Datei lässt sich nicht lesen ({why}): {name}\n{support}", "the file cannot be read ({why}): {name}\n{support}"),
    "unwritable": ("Das lässt sich nicht schreiben ({why}): {name}\n{support}", "this cannot be written ({why}): {name}\n{support}"),
    "output": ("Die Ausgabe lässt sich nicht schreiben ({why}).", "the output cannot be written ({why})."),
    "EACCES": ("keine Berechtigung", "no permission"),
    "EPERM": ("keine Berechtigung", "no permission"),
    "EROFS": ("nur zum Lesen freigegeben", "for reading only"),
    "ENOSPC": ("kein Speicherplatz mehr frei", "no space left"),
    "EDQUOT": ("kein Speicherplatz mehr frei", "no space left"),
    "EPIPE": ("das Programm dahinter nimmt nichts mehr an", "the program behind takes no more"),
    "EBADF": ("sie ist geschlossen", "it is closed"),
    "not built": ("Das Programm {program} fehlt und lässt sich nicht bauen.\n{support}", "the program {program} is missing and cannot be built.\n{support}"),
    "failed": ("Das Programm {program} arbeitet nicht richtig.\n{support}", "the program {program} does not work.\n{support}"),

    # the refusals
    1: ("Es sind nicht ein bis neun Blätter.", "these are not one to nine sheets."),
    "empty": ("{sheet} ist leer.\n{again}", "{sheet} is empty.\n{again}"),
    2: ("{sheet} hat mehr als 1.400 Zeichen; so viele hat kein Blatt.\n{again}", "{sheet} has more than 1,400 bytes; no sheet has so many.\n{again}"),
    3: ("{sheet} enthält ein Zeichen, das in keinem Medikationsplan vorkommt: das {count}. Zeichen (Byte {byte}).\n{reprint}",
        "{sheet} holds a byte that no medication plan has: byte {count} ({byte}).\n{reprint}"),
    4: ("{sheet} ist beschädigt oder falsch geschrieben: Ab dem {count}. Zeichen ist es kein Medikationsplan mehr; dort steht {text}.\n{reprint}",
        "{sheet} is damaged or misspelled: from byte {count} on it is no medication plan; there stands {text}.\n{reprint}"),
    "cut off": ("{sheet} hört mittendrin auf: Das Ende fehlt.\n{again}", "{sheet} stops in the middle: its end is missing.\n{again}"),
    "no plan": ("{sheet} ist kein Medikationsplan: Der Anfang <MP kommt nicht vor.\nDen Barcode auf dem Medikationsplan noch einmal scannen.",
                "{sheet} is no medication plan: its beginning <MP is not there.\nScan the barcode on the medication plan once more."),
    "several": ("{sheet} enthält mehr als ein Blatt.\nJedes Blatt in eine eigene Datei scannen.",
                "{sheet} holds more than one sheet.\nScan each sheet into a file of its own."),
    "byte order mark": ("{sheet} beginnt mit einer Unicode-Markierung (Byte Order Mark), die in keinem Barcode steht.\n{latin} {again}",
                        "{sheet} begins with a byte order mark, which no barcode has.\n{latin} {again}"),
    "UTF-8": ("{sheet} ist in UTF-8 gespeichert, nicht in Latin-1 wie ein Barcode.\n{latin} {again}",
              "{sheet} is saved in UTF-8, not in Latin-1 as a barcode is.\n{latin} {again}"),
    "declaration": ("{sheet} beginnt mit einer XML-Deklaration (<?xml ...?>), die in keinem Barcode steht.\n{unchanged}",
                    "{sheet} begins with an XML declaration (<?xml ...?>), which no barcode has.\n{unchanged}"),
    "prefix": ("{sheet}: Vor dem Plan steht {text}. So etwas setzt meist der Scanner davor.\nDas Präfix im Scanner abschalten. {again}",
               "{sheet}: before the plan stands {text}. Mostly it is the scanner that puts it there.\nSwitch the scanner's prefix off. {again}"),
    "suffix": ("{sheet}: Hinter dem Plan steht {text}. So etwas hängt meist der Scanner an.\nDas Suffix im Scanner abschalten. {again}",
               "{sheet}: behind the plan stands {text}. Mostly it is the scanner that puts it there.\nSwitch the scanner's suffix off. {again}"),
    5: ("{sheet} enthält etwas, das nicht dahin gehört.\n{details}\n{reprint}", "{sheet} holds something that does not belong there.\n{details}\n{reprint}"),
    "unknown field": ("{element}: Ein Feld {field} gibt es dort nicht.", "{element}: it has no field {field}."),
    "field twice": ("{element}: Das Feld {field} steht zweimal da.", "{element}: the field {field} is there twice."),
    "unknown element": ("Einen Teil {text} gibt es nicht.", "There is no part {text}."),
    "misplaced": ("Der Teil {field} steht am falschen Ort oder ist einmal zu viel da.", "The part {field} is misplaced or one too many."),
    6: ("{sheet} ist kein Medikationsplan der Version 2.7, nur diese wird gelesen. Feld {field}: {text}\n{issuer}",
        "{sheet} is no medication plan of version 2.7, the only one that is read. Field {field}: {text}\n{issuer}"),
    7: ("{sheet}: Ein Wert ist so nicht erlaubt.\n{details}\n{reprint}", "{sheet}: a value is not allowed.\n{details}\n{reprint}"),
    "value": ("{element}, Feld {field}: {text}{takes}", "{element}, field {field}: {text}{takes}"),
    "above": ("{element}: Seite {a} von {z} gibt es nicht; Feld {field} ist größer als Feld {other}.",
              "{element}: there is no page {a} of {z}; field {field} is above field {other}."),
    8: ("{sheet}: Eine Angabe fehlt oder verträgt sich nicht mit einer anderen.\n{details}\n{reprint}",
        "{sheet}: something is missing, or does not go with something else.\n{details}\n{reprint}"),
    "missing field": ("{element}: Das Feld {field} fehlt oder ist leer.", "{element}: the field {field} is missing or empty."),
    "missing element": ("{element}: Der Teil {field} fehlt.", "{element}: the part {field} is missing."),
    "unnamed": ("{element}: Es hat keine PZN (M.p), keinen Handelsnamen (M.a) und keinen Wirkstoff (W).",
                "{element}: it has no package number (M.p), no trade name (M.a) and no substance (W)."),
    "alone": ("{element}: Das Feld {field} {text} steht ohne das Feld {other} da.", "{element}: the field {field} {text} is there without the field {other}."),
    "pair": ("{element}: Die Felder {field} {text} und {other} {another} schließen einander aus.",
             "{element}: the fields {field} {text} and {other} {another} exclude each other."),
    9: ("{sheet} und {first} gehören zu verschiedenen Ausdrucken.\n{details}\nNur Blätter desselben Ausdrucks zusammen einlesen.",
        "{sheet} and {first} belong to different prints.\n{details}\nRead only sheets of the same print together."),
    "difference": ("{element}, Feld {field}: {text} auf Blatt 1, {another} auf Blatt {number}",
                   "{element}, field {field}: {text} on sheet 1, {another} on sheet {number}"),
    10: ("{other} und {sheet} sind beide Seite {a} von {z}.\n{details}", "{other} and {sheet} are both page {a} of {z}.\n{details}"),
    "same sheet": ("Es ist zweimal dasselbe Blatt. Eines davon weglassen.", "It is the same sheet twice. Leave one of them out."),
    "other sheet": ("Die beiden Dateien sind aber nicht gleich. Beide Blätter noch einmal scannen und mit dem Papier vergleichen.",
                    "But the two files are not the same. Scan both sheets once more and compare them with the paper."),
    11: ("Es fehlt Seite {missing} von {z}.\nDieses Blatt auch scannen und mit angeben.",
         "page {missing} of {z} is missing.\nScan that sheet too, and name it with the others."),
    "many missing": ("Es fehlen die Seiten {missing} von {z}.\nDiese Blätter auch scannen und mit angeben.",
                     "pages {missing} of {z} are missing.\nScan these sheets too, and name them with the others."),
    12: ("Der Plan hat mehr als 256 Zeilen. So lange Pläne werden nicht gelesen.\nDen Plan beim Aussteller kürzen und neu ausdrucken lassen.",
         "the plan has more than 256 rows. Plans of that length are not read.\nAsk the issuer for a new print of a shorter plan."),
    14: ("Der Plan passt nicht auf neun neue Blätter: Bis Zeile {row} reicht der Platz nicht.\n{other_form}",
         "the plan does not fit on nine fresh sheets: there is no room for the rows up to row {row}.\n{other_form}"),
    "long head": ("Der Plan passt nicht auf neue Blätter: Schon die Angaben zu Patient und Aussteller füllen mehr als ein Blatt.\n{other_form}",
                  "the plan does not fit on fresh sheets: what it says about patient and issuer alone fills more than one.\n{other_form}"),
    "other form": ("Ohne --fresh lässt er sich ausgeben, mit --table zum Beispiel.", "It can be printed without --fresh, for example with --table."),

    # the warning
    "mixed up": ("Warnung: {sheet}: Umlaute oder Sonderzeichen sind wohl falsch angekommen. Da steht {text}, gemeint ist wohl {another}.\n"
                 "Mit dem Papier vergleichen. Stimmt es nicht überein: {latin} {again}",
                 "warning: {sheet}: letters have probably come over wrong. It says {text}, and probably means {another}.\n"
                 "Compare them with the paper. Where they differ: {latin} {again}"),
}


def both(key, **values):
    """The German and the English text of a message with its values."""
    def in_language(at):
        return WORDS[key][at].format(**{name: value[at] if isinstance(value, tuple) else value for name, value in values.items()})
    return in_language(0), in_language(1)


def lines(pairs):
    """Messages one below the other."""
    return "\n".join(german for german, _ in pairs), "\n".join(english for _, english in pairs)


def visible(text):
    """A text of one line without what a terminal would not show or would obey."""
    return "".join(mark if mark.isprintable() else mark.encode("unicode_escape").decode() for mark in text).replace("\\udc", "\\x")


def quoted(text, most=60):
    """A value for a message, in quotes, cut where it is long."""
    if not text:
        return both("nothing")
    short = visible(text[:most]) + ("..." if len(text) > most else "")
    return both("broken" if "~" in short else "quoted", text=short)


def field(element, letters):
    """A field's name with its letters, as documents and sheets have them."""
    return both("field", name=FIELDS[element][letters], letters=f"{element}.{letters}")
