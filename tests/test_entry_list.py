"""The entry list: what is wrong with one is said, in whatever form a program has saved it, and the program
takes what the package gives it of every other."""
from __future__ import annotations

import json
import os
import random
import subprocess
import unittest
from unittest import mock

import helpers
from raceoffice.errors import Trouble
from raceoffice.remarks import Remark
from raceoffice.series import entry_list, headings, read_list

GOOD = [b"Sail\nA\n", b"Boat,Sail\nX,gbr 7\n", b"\xef\xbb\xbfSail No\r\nA\r\nB\r\n",
        b"sailnumber\nA-1\n\n,\n",
        b'Sail,Helm\nA,"Two\nlines"\nB,x\n', b'Sail,Helm,Notes\nA,"""Ace"" x","1 Quay,\n""Town"", UK"\nB,y,\n',
        b'Sail,Helm\nA,"Jo" Moss\nB,19" x\n', b"Sail,Helm\nA,J\xfcrgen\n", b"\nSail\nA\n", b"Sail\rA\rB\r",
        b"Sail,Helm\nA," + b"x" * 1000 + b"\0\n", b"Sail,Helm\nA," + b"x" * 200_000 + b"\n",
        b"Sail\n" + b"".join(b"B%d\n" % at for at in range(500)), b"Sail;Helm\nA;x\n", b"Helm\tSail\nx\tA\n",
        b'"Sail";"Helm"\n"A";"x;y"\n', b"Sail;\nA;\n", b"Sail No.\nA\n", b"Segelnummer\nA\n",
        "Sail\tHelm\nA\tJ\u00fcrgen\n".encode("utf-16"), "\ufeffSail,Helm\nA,x\n".encode("utf-16-be"),
        "Sail\nA\n".encode("utf-32"), "Sail,Helm\n\u00a0,\u2003\nA,x\n".encode(),
        # Two names on two lines, and an address: no row is in them.
        b'Sail,Helm,Boat\nGBR 1,"Smith, Jo\nBrown, Al",Tern\nGBR 2,x,y\n', b'Helm;Boat;Sail\r\n"Ash; B\r\nOak; C";Tern;GBR 1\r\n',
        b'Sail,Helm,Club\nGBR 1,x,"Royal YC,\nLymington"\n', b'Sail,Helm,Address\nGBR 1,x,"Mill House,\n12 High St, Cowes"\n']
BAD = [
    (b"PK\x03\x04xx", 'a spreadsheet, not CSV. Save it as "Text CSV".'),
    (b"\xd0\xcf\x11\xe0xx", "a spreadsheet, not CSV."),
    ("Sail\nA\n".encode("utf-16-le"), "UTF-16 without its mark"),
    (b"", "is empty"),
    (b";;\n;;\n", "is empty"),
    (b"\t\n", "is empty"),
    (b",\r\n , \r\n", "is empty"),
    (b"\xef\xbb\xbf;\n", "is empty"),
    (b"Autumn Cup\n\nSail,Helm\nA,x\n", "Row 1 of list.csv is a title; the headings are in row 3."),
    (b"\nAutumn Cup;\nSail;Helm\nA;x\n", "Row 2 of list.csv is a title; the headings are in row 3."),
    (b"Sailor\nA\n", "No column of list.csv has the heading Sail, SailNo or SailNumber. 'Sailor' isn't one"),
    (b"Boat;Number\nA;1\nB;2\n", "No column of list.csv has the heading Sail, SailNo or SailNumber."),
    (b"Sail,Helm\nFRA/45,C. Blanc\n", 'row 2 (C. Blanc): the sail "FRA/45" has a slash'),
    ("Sail\nGBR\u00a07\n".encode(), "a no-break space (U+00A0)"),
    ("Sail\nK\u201312\n".encode(), "a long dash (U+2013)"),
    ("Sail\n\u017f7\n".encode(), 'the sail "\u017f7" has the sign \'\u017f\''),
    ("Sail\nGRO\u00df7\n".encode(), 'the sail "GRO\u00df7" has the sign \'\u00df\''),
    ("Sail\nGBR\u0667\n".encode(), "has the sign"),
    (b"Sail\nABCDEFGHIJKLM\n", "has 13 letters and digits"),
    (b"Sail,Helm\n,x\n", "there is no sail"),
    (b"Sail,Helm\nA,x\nB,y\na,z\n", "row 4 (z): a is in row 2, too."),
    (b'Helm,Sail\n"x\ny"\n', "row 2: it ends before the column of sails. Is a quotation mark not closed?"),
    (b'Helm,Sail\n"x,A\ny,B\n', "row 2: a quotation mark isn't closed where its cell ends"),
    # The boats below are in a name, or in a column that nothing reads.
    (b'Sail,Helm\nA,x\nB,"y\nC,z\n', "row 3: a quotation mark isn't closed where its cell ends"),
    (b'Sail,Helm,Boat\r\nA,"x,y\r\nB,"z,y\r\nC,x,y\r\n', "row 2: a quotation mark isn't closed where its cell ends"),
    (b'Sail;Helm;Notes\nA;x;"late\nB;y;\nC;z;\n', "row 2: a quotation mark isn't closed where its cell ends"),
    (b'Sail,Helm,Boat,Club\nA,"x,Kestrel,y\nB,z,19",y\n', "row 2 (x,Kestrel,y B,z,19): a quotation mark isn't closed"),
    (b'Sail,Helm,Boat\nGBR 1,"x,Kestrel\nGBR 2,y,19"\n', "row 2 (x,Kestrel GBR 2,y,19): a quotation mark isn't closed"),
    (b'Helm,Boat,Sail\n"x,Kestrel,A1\ny",19,B2\n', "row 2 (x,Kestrel,A1 y): a quotation mark isn't closed"),
    (b'Sail,Helm,Notes\nA,x,"late\nB,y,\nC,z,"\n', "row 2 (x): a quotation mark isn't closed"),
    (b"Helm,Sail\nx\n", "row 2: it ends before the column of sails."),
    (b"Sail,Helm\n", "has headings, but no boats"),
    (b"Sail\n" + b"".join(b"B%d\n" % at for at in range(501)), "has 501 boats, and 500 fit"),
]
# How programs and clubs head their lists, and the columns that aren't read.
HEADED = [
    ("SailNo,HelmName,CrewName,Boat,Class,Club,Fleet,PY", ["CrewName", "Class", "Fleet"]),
    ("Segelnummer;Steuermann;Vorschoter;Bootsname;Verein;Yardstickzahl", ["Vorschoter", "Yardstickzahl"]),
    ("Segel-Nr.\tSteuermann/-frau\tSchiff\tSegelclub\tBootsklasse\tRating", ["Bootsklasse"]),
    ("N° de voile;Barreur;Équipier;Bateau;Club;TCF", ["Équipier"]),
    ("Numéro de voile,Nom du barreur,Nom du bateau,Nom du club,Rating", []),
    ("Zeilnummer;Stuurman;Bemanning;Bootnaam;Vereniging;Rating", ["Bemanning"]),
    ("Nº de vela;Patrón;Tripulante;Barco;Club Náutico;Rating", ["Tripulante"]),
    ("Número de vela,Nombre del patrón,Nombre del barco,Club,Clase,TCC", ["Clase"]),
    ("Numero velico;Timoniere;Equipaggio;Imbarcazione;Circolo;TCC", ["Equipaggio"]),
    ("N. velico,Nome timoniere,Nome barca,Circolo Nautico,Classe,Rating", ["Classe"]),
    ("Sail Number,Helm Name,Boat Name,Club Name,Portsmouth Number,,Name", ["column 6", "Name"]),
]

# The program's words for what is wrong with a row.
OF_ROWS = {"row-short": "BadRow", "row-sail": "BadSail", "row-twice": "Twice"}


def listed(data: bytes) -> dict[str, entry_list.Boat]:
    """The boats that are read of a list."""
    with helpers.folder() as name:
        path = os.path.join(name, "list.csv")
        with open(path, "wb") as file:
            file.write(data)
        return entry_list.read(path)


class Entries(unittest.TestCase):
    def said(self, data: bytes) -> list[str]:
        """The sails that the program enters of what it is given of a list."""
        with helpers.folder() as name:
            path = os.path.join(name, "list.csv")
            with open(path, "wb") as file:
                file.write(data)
            given = entry_list.given(path)
            with open(path, "wb") as file:
                file.write(given)
            done = subprocess.run([helpers.PROGRAM, "replay", "--entries", path, "--print", "journal"],
                                  text=True, stdin=subprocess.DEVNULL, capture_output=True)
        self.assertEqual(done.returncode, 0, done.stderr)
        return [line.split()[4] for line in done.stdout.splitlines()[1:]]

    def test_good(self) -> None:
        for data in GOOD:
            self.assertEqual(entry_list.problems(data, "list.csv"), [], data[:40])
            sails = self.said(data)
            self.assertGreater(len(sails), 0)
            self.assertEqual(sails, list(listed(data)), data[:40])

    def test_bad(self) -> None:
        for data, words in BAD:
            wrong = entry_list.problems(data, "list.csv")
            self.assertIn(words, "\n".join(wrong), data[:40])
            self.assertEqual(listed(data), {})
            with self.assertRaises(Trouble) as raised:
                self.said(data)
            self.assertEqual(str(raised.exception), "\n".join(wrong))

    def test_all_at_once(self) -> None:
        """A list with several faults is faulted once, as far as its rows can be read."""
        data = b"Autumn Cup\nBoat;Sail;Helm\nFulmar;FRA/45;C. Blanc\nSterna;;R. Shaw\n"
        self.assertEqual(entry_list.problems(data, "list.csv"), [
            "Row 1 of list.csv is a title; the headings are in row 2. Take out what is above row 2.",
            'list.csv, row 3 (C. Blanc): the sail "FRA/45" has a slash. A sail has 1 to 12 letters, digits '
            "and dashes.",
            "list.csv, row 4 (R. Shaw): there is no sail. A sail has 1 to 12 letters, digits and dashes."])
        second = data.partition(b"\n")[2].replace(b"Sail", b"Sails")
        self.assertEqual(entry_list.problems(second, "list.csv"), [
            "No column of list.csv has the heading Sail, SailNo or SailNumber. 'Sails' isn't one of them.",
            'list.csv, row 2 (C. Blanc): the sail "FRA/45" has a slash. A sail has 1 to 12 letters, digits '
            "and dashes.",
            "list.csv, row 3 (R. Shaw): there is no sail. A sail has 1 to 12 letters, digits and dashes."])

    def checked(self, data: bytes) -> dict[int, str]:
        """What the program finds wrong with the rows of a list, by their numbers."""
        with helpers.folder() as name:
            path = os.path.join(name, "list.csv")
            with open(path, "wb") as file:
                file.write(data)
            printed = helpers.ran("check", "--entries", path)[0]
        return {row["row"]: row["fault"] for row in json.loads(printed)["rows"]}

    def test_as_the_program(self) -> None:
        """Of random lists in the program's own form, with one column of sails, the rows are wrong that are wrong for the
        program, for the same reason."""
        seen: set[str] = set()
        for number in range(helpers.trials(200)):
            dice = random.Random(number)
            sails = ["".join(dice.choices("AB1- a", k=dice.choice([1, 2, 2, 3, 11, 12, 13]))) for _ in range(4)]
            odd = ["A_B", "\u00c4", "\u0131", "a\u00a0b", "", " ", "\u212a", "A/1"]
            heads = dice.choice(["Boat,Sail", "Boat,Sail No", "Boat,sailnumber", "Boat,SAILNO"])
            rows = [",".join(["W"] * dice.choice([0, 1, 1, 1, 1]) + [dice.choice([*sails * 4, *odd])]) or "," for _ in range(6)]
            data = "".join(f"{row}\n" for row in [heads, *rows]).encode()
            found = {}
            for one in entry_list.problems(data, "list.csv"):
                if one.kind == "list-row":
                    fault = one.values["fault"]
                    assert isinstance(fault, Remark) and isinstance(one.values["row"], int)
                    found[one.values["row"]] = OF_ROWS[fault.kind]
            with self.subTest(data):
                self.assertEqual(found, self.checked(data))
            seen |= {*found.values()}
        if helpers.trials(200) >= 200:
            self.assertEqual(seen, {*OF_ROWS.values()})

    def test_headings(self) -> None:
        """Each usual heading is known, and each column that isn't read is named."""
        for line, left in HEADED:
            separator = next(mark for mark in "\t;," if mark in line)
            heads = line.split(separator)
            row = separator.join(f"x {at}" if headings.column([head], headings.ENTRIES["sail"]) is None
                                 else "GBR 7" for at, head in enumerate(heads))
            data = f"{line}\n{row}\n".encode()
            self.assertEqual(entry_list.problems(data, "list.csv"), [])
            boat = listed(data)["GBR7"]
            for text in (boat.helm, boat.name, boat.club):
                self.assertRegex(text, "^x [0-9]$", line)
            self.assertEqual(entry_list.columns_left(data), left, line)
            # A German Yardstick number isn't a Portsmouth number.
            self.assertEqual(len(headings.rating_columns(read_list.table_of(data).heads)), "Yardstick" not in line, line)

    def test_each_heading(self) -> None:
        """Every heading of the table is found, alone, and in capitals with spaces and dots."""
        for table in (headings.ENTRIES, headings.SHEET):
            names = [name for some in table.values() for name in some]
            self.assertEqual(len(names), len(set(names)))
            for key, some in table.items():
                for name in some:
                    self.assertEqual(name, headings.plain_heading(name))
                    self.assertEqual(headings.columns(["x", f" {name[0].upper()}. {name[1:]}."], table),
                                     {key: 1})

    def test_columns_without_heading(self) -> None:
        """A column without a heading is named by its number, if anything is in it."""
        self.assertEqual(entry_list.columns_left(b"Sail,,Helm,,\nA,x,y,,\nB,,y,,,z\n"),
                         ["column 2", "column 6"])

    def test_ratings(self) -> None:
        """What is said of the ratings depends on whether the series goes by them."""
        plain, rated = b"Sail,Helm\nA,x\n", b"Sail,PY,Rating from 5\nA,1100,1101\n"
        self.assertEqual(entry_list.rating_note(plain, "list.csv", True),
                         "No column of list.csv has the heading Rating, PY or TCF: raceoffice times needs "
                         "one.")
        self.assertEqual(entry_list.rating_note(rated, "list.csv", False),
                         "Read in a series by corrected time alone: PY and Rating from 5.")
        self.assertIsNone(entry_list.rating_note(plain, "list.csv", False))
        self.assertIsNone(entry_list.rating_note(rated, "list.csv", True))

    def test_encodings(self) -> None:
        """What isn't UTF-8 is what old spreadsheets write; marks of UTF-16 are heeded."""
        names = "Sail,Helm\nA,\u0160. O\u2019Brien\n"
        for encoding in ("utf-8", "utf-8-sig", "cp1252", "utf-16", "utf-32"):
            self.assertEqual(listed(names.encode(encoding))["A"].helm, "\u0160. O\u2019Brien", encoding)
        self.assertEqual(listed(b"Sail,Helm\nA,x\x81y\n")["A"].helm, "x\ufffdy")

    def test_invisible_signs(self) -> None:
        """No name has a sign that moves a cursor or turns a line."""
        helm = "Wind\x1b[2K\x1b[1A\u202ehover\u200b\x07, \u00a0J\u00fcrgen \x85 S.\u2028"
        self.assertEqual(listed(f'Sail,Helm\nA,"{helm}"\n'.encode())["A"].helm,
                         "Wind[2K[1Ahover, J\u00fcrgen S.")

    def test_commas(self) -> None:
        data = 'Other;Sail\n"a;b";GBR 7\nx,y;NED 1\n'.encode()
        self.assertEqual(self.said(data), ["GBR7", "NED1"])
        self.assertEqual(read_list.table_of(data).rows, [(2, ["a;b", "GBR 7"]), (3, ["x,y", "NED 1"])])

    def test_files(self) -> None:
        """A list that is no plain file, or far too long, is said to be so, and holds nobody up."""
        with helpers.folder() as name:
            path = os.path.join(name, "list.csv")
            self.assertRaisesRegex(Trouble, "isn't there", read_list.bytes_of, path)
            os.mkfifo(path)
            self.assertRaisesRegex(Trouble, "no plain file", read_list.bytes_of, path)
            self.assertRaisesRegex(Trouble, "no plain file", entry_list.read, path)
            self.assertEqual(entry_list.read_if_there(path), {})
            self.assertRaisesRegex(Trouble, "Is a directory", read_list.bytes_of, name)
            long = os.path.join(name, "long.csv")
            with open(long, "wb") as file:
                file.truncate(read_list.LARGEST + 1)
            self.assertRaisesRegex(Trouble, "is longer than 1,048,576 bytes", read_list.bytes_of, long)
            self.assertRaisesRegex(Trouble, "name of a file", read_list.bytes_of, "a\0b")

    def test_hostile(self) -> None:
        """However many faults or columns a list of 1 MB has, a thousand are looked at: whoever taps waits for it."""
        bad = b"Sail\n" + b"".join(b"G/%d\n" % at for at in range(90_000))
        self.assertEqual(len(entry_list.problems(bad, "list.csv")), 1000)
        with mock.patch.object(headings, "plain_heading", side_effect=headings.plain_heading) as read:
            self.assertEqual(entry_list.problems(b"Sail," + b"a," * 400_000 + b"\nA,\n", "list.csv"), [])
        self.assertLess(read.call_count, 100_000)

    def test_looked_through_once(self) -> None:
        """A list, also one with faults, is parsed and looked through once, however many sessions, boards and sheets ask for
        its boats: whoever taps waits for it. A list that has changed is read, even at the same size and time."""
        for rows in (b"".join(b"A-%d,Ann\n" % at for at in range(400)), b"".join(b"A-%d,Bo\n" % at for at in range(900))):
            with helpers.folder() as name, \
                    mock.patch.object(entry_list, "fault_of_row", side_effect=entry_list.fault_of_row) as looked, \
                    mock.patch.object(entry_list, "Boat", side_effect=entry_list.Boat) as made, \
                    mock.patch.object(read_list, "rows_of", side_effect=read_list.rows_of) as parsed:
                path, count = os.path.join(name, "list.csv"), rows.count(b"\n")
                with open(path, "wb") as file:
                    file.write(b"Sail,Helm\n" + rows)
                for _ in range(3):
                    boats = entry_list.read_if_there(path)
                    boats.clear()
                    entry_list.problems(read_list.bytes_of(path), path).clear()
                good = count if count <= entry_list.ROOM else 0
                self.assertEqual((looked.call_count, made.call_count, parsed.call_count),
                                 (count, good, len(read_list.SEPARATORS)))
                self.assertEqual((len(entry_list.read(path)), len(entry_list.problems(read_list.bytes_of(path), path))),
                                 (good, count > entry_list.ROOM))
                at = os.stat(path)
                with open(path, "r+b") as file:
                    file.write(b"Sail,Boat\n")
                os.utime(path, ns=(at.st_atime_ns, at.st_mtime_ns))
                self.assertEqual([boat.name for boat in entry_list.read(path).values()], ["Ann"] * good)

    def test_names(self) -> None:
        boats = listed(helpers.ENTRIES.encode())
        self.assertEqual(boats["GBR7"], entry_list.Boat("GBR 7", "J. Hale", "Sea Pink", "Sandhaven"))
        self.assertEqual(str(boats["GBR7"]), "GBR 7 Sea Pink")
        self.assertEqual(listed(b"Sail,Boat\nfra 431,Orque\n")["FRA431"],
                         entry_list.Boat("FRA 431", "", "Orque"))

    def test_near(self) -> None:
        boats = ["GBR101", "GBR7", "DEN61", "NED12"]
        for slip, meant in [("GBR110", ["GBR101"]), ("GBR10", ["GBR101"]), ("DEN16", ["DEN61"]),
                            ("NED121", ["NED12"]), ("NED13", ["NED12"]), ("GBR7", []), ("XYZ", [])]:
            self.assertEqual(entry_list.near(slip, boats), meant, slip)


if __name__ == "__main__":
    unittest.main()
