"""What is said of an input that holds something else than records: one case each, and none where nothing is known."""

import io
import pathlib
import sys
import unittest
import zipfile

sys.dont_write_bytecode = True
HERE = pathlib.Path(__file__).resolve().parent
sys.path[:0] = [str(HERE.parent), str(HERE)]

from freight_text.faults.readings import findings_of  # noqa: E402
from freight_text.records import records_of  # noqa: E402

ENDS = "terminal,A\nterminal,B\n"
ARC = "arc,A,B,5,10,100,1\n"
DAY = ENDS + ARC + "shipment,S1,A,B,4,0,10\n"
ANSWER = "answer,optimal,104\nleg,S1,A,B,0,5\ntruck,A,B,0,1,4\nend\n"


def archive(*names):
    data = io.BytesIO()
    with zipfile.ZipFile(data, "w") as file:
        for name in names:
            file.writestr(name, "application/vnd.oasis.opendocument.spreadsheet" if name == "mimetype" else "x")
    return data.getvalue()


# Whole inputs that hold no records, as direct reads them, and what is said of the first.
CONTENTS = (
    (b"\x7fELF\x02\x01\x01" + bytes(9) + b"\n,\n", "a program (ELF)"),
    (b"\x93\x07\x1b,\x8a\n\x02\x10,\xff\n\x05\n", "bytes that no text has, the first at place 2: is it CSV?"),
    (archive("[Content_Types].xml", "xl/workbook.xml"), "a spreadsheet (.xlsx): ./freight import reads it (docs/tables.md)"),
    (archive("mimetype"), "a spreadsheet (.ods): save it as .xlsx or CSV"),
    (archive("day.csv"), "a ZIP archive: take the CSV file out"),
    (b"\xd0\xcf\x11\xe0\xa1\xb1\x1a\xe1" + bytes(9), "a spreadsheet of an old kind (.xls)"),
    (b"%PDF-1.7\n%\xe2\xe3\n1 0 obj\n", "a PDF"),
    (b"\x1f\x8b\x08\x00\x00", "compressed by gzip"),
    (ENDS.encode("utf-16"), "the file looks like UTF-16: save it as CSV in UTF-8"),
    (ENDS.encode("utf-16-le"), "the file looks like UTF-16"),
    (ENDS.encode("utf-16-be"), "the file looks like UTF-16"),
    (b"\xef\xbb\xbf\xef\xbb\xbfterminal,A\n", "a second byte order mark"),
    (b"Shipment,From,To,Pallets,Ready,Due\nS1,LYON,PARIS,4,08:00,17:00\nS2,NICE,PARIS,4,08:00,17:00\n", "a table with headings? ./freight import reads it"),
    (b"kind,name,hold\nterminal,A\n", "a header row? there is none in this format"),
    (b"terminal;A\nterminal;B\n", "the fields look separated by semicolons: save the file with commas"),
    (b"Name;Hold\nLYON;30\n", "the fields look separated by semicolons"),
    (b"terminal\tA\nterminal\tB\n", "the fields look separated by tabs"),
    (b"# a comment\n# and one more, with a comma\n", "a comment? there are none in this format"),
    (b'"terminal,A"\n"terminal,B"\n', "the record stands in quotes as one field"),
    (b"refused,3,1\n", "a command has printed this"),
    (ANSWER.encode(), "this is an answer: direct reads an instance"),
)  # fmt: skip

# The command, an input of which one record holds something else, and what is said of it: no word means that nothing is.
RECORDS = (
    ("direct", "\u00a0terminal,A\n", "a no-break space stands in it (bytes c2 a0 in UTF-8)"),
    ("direct", "terminal,A\u00a0\n", "a no-break space stands in it"),
    ("direct", "terminal,A,1\u202f000\n", "a narrow no-break space stands in it (bytes e2 80 af in UTF-8)"),
    ("direct", "Terminal,A\n", '"terminal" is one, in small letters'),
    ("direct", "shipmnet,S1,A,B,4,0,10\n", 'is there a typo? "shipment" is one'),
    ("direct", ",terminal,A\n", "the first field is empty: is there a column too many?"),
    ("direct", "terminal,A # hub\n", "a comment?"),
    ("direct", 'terminal, "A"\n', "a quote counts only as the first byte of a field"),
    ("direct", "terminal,N\u00eemes\n", 'a letter that isn\'t ASCII: write "Nimes"'),
    ("direct", "terminal,Stra\u00dfe\n", 'write "Strasse"'),
    ("direct", "terminal,SAINT ETIENNE\n", 'a blank: write "SAINT_ETIENNE"'),
    ("direct", "terminal,A.B\n", 'another character: write "A_B"'),
    ("direct", "terminal,,5\n", "the field is empty"),
    ("direct", "terminal,NAME,HOLD\n", "a header row?"),
    ("direct", "terminal,A,12.5\n", "a decimal: numbers are whole"),
    ("direct", 'terminal,A,"12,5"\n', "a decimal: numbers are whole"),
    ("direct", "terminal,A,1 000\n", "a separator of thousands, or a decimal: write digits alone, as 1000"),
    ("direct", "terminal,A,-5\n", "a sign: numbers have none"),
    ("direct", "terminal,A,1E+2\n", "an exponent: write the number out"),
    ("direct", "terminal,A,08:30\n", "a clock time: times are whole numbers from a zero of your own, as 510 in minutes"),
    ("direct", "terminal,A,2026-03-02 08:30\n", "a date: times are whole numbers"),
    ("direct", "terminal,A,02.03.2026\n", "a date: times are whole numbers"),
    ("plan", DAY + "kept,S1,A,B,0\n", "plan reads no kept legs: ./freight replan, check, yard, fleet and improve do"),
    ("quote", DAY + "kept,S1,A,B,0\n", "quote reads no kept legs: ./freight replan, check, yard, fleet and improve do"),
    ("bound", DAY + "kept,S1,A,B,0\n" + ANSWER, "bound reads no kept legs"),
    ("check", DAY + ANSWER + "kept,S1,A,B,0\n", "the record stands after the certificate's end"),
    ("check", DAY, "no certificate comes (code 26, MissingEnd); hand on the instance first and then its answer"),
    ("fleet", ANSWER, "no instance stands before the answer"),
    ("check", ANSWER + DAY, "no instance stands before the answer"),
    ("check", "answer,direct,0\nend\n" + DAY, "the instance's records stand after the answer"),
    ("check", DAY + ANSWER + ANSWER, "an answer is checked alone"),
    ("check", DAY + "leg,S1,A,B,0,5\nend\n", 'an answer begins with its line "answer": none stands before this one'),
    ("check", DAY + "Answer,optimal,104\nleg,S1,A,B,0,5\nend\n", '"answer" is one, in small letters'),
    ("check", DAY + "answer,bound,100\nend\n", "an answer bound shows nothing that can be checked"),
    ("plan", DAY + ANSWER, "plan reads an instance alone"),
    ("replan", DAY + "kept,S1,A,B,0\nterminal,C\n", "the instance's records stand before all kept legs"),
    ("replan", "kept,S1,A,B,0\n" + DAY, "the instance's records stand before all kept legs"),
    ("replan", DAY + "kept,S1,A,B,0\n" + ANSWER, "replan reads no answer"),
    ("direct", "depot,C\n", ""),
    ("direct", "<html>\n", ""),
    ("direct", "terminal,A,5x\n", ""),
    ("direct", ENDS + "arc,A,T12,5,10,100,1\n", ""),
)  # fmt: skip


def first(command, data):
    """The first finding of an input."""
    return findings_of([command], records_of(data), data).listed[0]


class Hints(unittest.TestCase):
    def test_contents(self):
        for data, part in CONTENTS:
            self.assertIn(part, first("direct", data).sentence())

    def test_contents_are_told_once(self):
        for data, _ in CONTENTS:
            self.assertEqual(len(findings_of(["direct"], records_of(data), data).listed), 1, data)

    def test_records(self):
        for command, text, part in RECORDS:
            found = first(command, text.encode())
            self.assertIn(part, found.sentence())
            self.assertTrue(part or not found.fault.hint, found.fault.hint)

    def test_bytes_of_another_encoding(self):
        self.assertIn('"N\\xeemes"', first("direct", "terminal,N\u00eemes\n".encode("cp1252")).sentence())
        self.assertIn('"N\u00eemes"', first("direct", "terminal,N\u00eemes\n".encode()).sentence())


if __name__ == "__main__":
    unittest.main()
