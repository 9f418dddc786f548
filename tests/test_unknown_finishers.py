"""Finishers whose sails aren't known: where each stands once she is."""
from __future__ import annotations

import time
import unittest
from collections.abc import Sequence

from raceoffice.errors import NotSent
from raceoffice.program.journal import Race
from raceoffice.series.kept_places import History, Note
from raceoffice.series.unknown_finishers import Waiting, marks_by_race


def race_of(*groups: str) -> Race:
    """A race with this order; each letter is a boat."""
    return Race(1, [list(group) for group in groups])


def kept(mark: str, behind: str = "", race: int = 1, entries: int = 0) -> Note:
    """A place that was kept behind these boats; each letter is one."""
    return Note("kept", race, mark, "Ann", typed=mark.partition("?")[0], behind=tuple(behind), entries=entries)


def known(mark: str, sail: str) -> Note:
    return Note("resolved", 1, mark, line=f"FINISH 1 {sail}", entry=9)


def dropped(mark: str, race: int = 1) -> Note:
    return Note("dropped", race, mark, why="none")


def waiting(*notes: Note, journal: Sequence[str] = ()) -> Waiting:
    """Who is kept after these notes, and with this journal."""
    return History.read(b"".join(note.text() for note in notes), journal).waiting


class Unread(unittest.TestCase):
    def test_place(self) -> None:
        """She was seen after A and B. Whatever happens to the order, she finished behind both."""
        meant = waiting(kept("?1", "AB")).all[0]
        for order, line in [(("A", "B"), "FINISH 1 X"), (("A", "B", "C"), "BEFORE 1 X C"),
                            (("C", "A", "B", "D"), "BEFORE 1 X D"), (("A", "BC", "D"), "BEFORE 1 X D"),
                            (("A", "C"), "BEFORE 1 X C"), (("C", "D"), "BEFORE 1 X C"),
                            (("B", "A"), "FINISH 1 X"), ((), "FINISH 1 X")]:
            self.assertEqual(meant.line("X", race_of(*order)), line, order)

    def test_corrected_order(self) -> None:
        """She was seen after A and B, and before C. A boat that is struck and entered again is ahead of her as
        before, unless she stands now behind somebody who finished later."""
        def line(*later: str) -> str:
            journal = ["FINISH 1 A", "FINISH 1 B", *later]
            note = kept("?1", "AB", entries=3)
            race = Race(1)
            for text in journal:
                race.follow([text.split()[0], *text.split()[2:]])
            return History.read(note.text(), ["ENTER Z", *journal, "MARK 2 A OCS"]).waiting.all[0].line("X", race)
        c = "FINISH 1 C"
        for later, wanted in [
                ((c,), "BEFORE 1 X C"), (("STRIKE 1 A", c), "BEFORE 1 X C"),
                # She crossed the line after C.
                ((c, "STRIKE 1 A", "FINISH 1 A"), "BEFORE 1 X C"),
                ((c, "STRIKE 1 B", "TIE 1 B C"), "BEFORE 1 X C"),
                ((c, "FINISH 1 D", "STRIKE 1 B", "BEFORE 1 B D"), "BEFORE 1 X C"),
                ((c, "STRIKE 1 A", "STRIKE 1 B", "FINISH 1 B", "FINISH 1 A"), "BEFORE 1 X C"),
                # Only their own order was corrected.
                ((c, "STRIKE 1 A", "BEFORE 1 A C"), "BEFORE 1 X C"),
                ((c, "STRIKE 1 B", "BEFORE 1 B A"), "BEFORE 1 X C"),
                (("STRIKE 1 A", "FINISH 1 A"), "FINISH 1 X"),
                (("STRIKE 1 A", "FINISH 1 A", c), "BEFORE 1 X C"),
                (("STRIKE 1 A", "STRIKE 1 B", "FINISH 1 B", "FINISH 1 A", c), "BEFORE 1 X C"),
                # Those who finished later are ahead of her if somebody says so.
                ((c, "STRIKE 1 C", "BEFORE 1 C A"), "FINISH 1 X"), ((c, "STRIKE 1 C", "TIE 1 C B"), "FINISH 1 X"),
                ((c, "STRIKE 1 A", "BEFORE 1 A C", "STRIKE 1 C", "BEFORE 1 C A"), "FINISH 1 X"),
                (("TIE 1 C A",), "FINISH 1 X"), (("BEFORE 1 C A", "FINISH 1 D"), "BEFORE 1 X D")]:
            self.assertEqual(line(*later), wanted, later)

    def test_corrected_order_of_two(self) -> None:
        """The order is A, ?1, B, ?2, C. A boat comes back behind one place and ahead of the other."""
        both = [kept("?1", "A", entries=1), kept("?2", "AB", entries=2)]
        journal = ["FINISH 1 A", "FINISH 1 B", "FINISH 1 C"]
        for later, order, places in [
                (["STRIKE 1 B", "BEFORE 1 B C"], "ABC", ("2nd", "4th")),
                (["STRIKE 1 A", "BEFORE 1 A C"], "BAC", ("1st", "4th")),
                (["STRIKE 1 A", "FINISH 1 A"], "BCA", ("1st", "3rd")),
                (["STRIKE 1 B", "STRIKE 1 C", "STRIKE 1 A", "FINISH 1 A"], "A", ("2nd", "3rd"))]:
            found = waiting(*both, journal=journal + later).places(race_of(*order))
            self.assertEqual(found, dict(zip(("?1", "?2"), places)), later)

    def test_kept_behind_others(self) -> None:
        """A boat that was struck, and of which somebody says that she finished after a place, is behind it. What
        was sent for that place still counts."""
        sent = Note("sent", 1, "?1", line="BEFORE 1 X A", entries=4)
        notes = [kept("?1", "AB", entries=2), sent, kept("?1", "B", entries=3)]
        journal = ["FINISH 1 A", "FINISH 1 B", "STRIKE 1 A", "FINISH 1 A"]
        found = waiting(*notes, journal=journal)
        self.assertEqual(found.all[0].line("X", race_of("B", "A")), "BEFORE 1 X A")
        self.assertEqual(found.given, ((1, "?1"),))
        self.assertEqual(waiting(*notes, journal=[*journal, "BEFORE 1 X A"]).all, ())
        # An older line that is put in again changes nothing.
        found = waiting(*notes, notes[0], journal=journal)
        self.assertEqual(found.all[0].line("X", race_of("B", "A")), "BEFORE 1 X A")

    def test_other_journals(self) -> None:
        """With a journal that is shorter, or has lines that no office takes, she is behind the same boats."""
        note = kept("?1", "AB", entries=9)
        journals: list[list[str]] = [
            [], ["FINISH 1 A"], ["FINISH 1 A", "FINISH 1 B", "FINISH 1 C"],
            ["BEFORE 1 A Q", "TIE 1 A", "FINISH 1", "FINISH", "", "?", "FINISH 1 B", "FINISH 1 C"]]
        for journal in journals:
            found = waiting(note, journal=journal).all[0]
            self.assertEqual(found.line("X", race_of("A", "B", "C")), "BEFORE 1 X C", journal)

    def test_two(self) -> None:
        """The order is A, ?1, B, ?2, C. The second is known first, and finishes behind ?1."""
        both = [kept("?1", "A"), kept("?2", "AB")]
        order = race_of("A", "B", "C")
        self.assertEqual([waiting(*both).ahead_of(order, sail) for sail in "ABC"], [0, 1, 2])
        self.assertEqual(waiting(*both).places(order), {"?1": "2nd", "?2": "4th"})
        self.assertEqual(waiting(*both).one(1, "?2").line("Y", order), "BEFORE 1 Y C")
        left = waiting(*both, known("?2", "Y"))
        self.assertEqual(left.one(1, "?1").line("X", race_of("A", "B", "Y", "C")), "BEFORE 1 X B")
        left = waiting(*both, known("?1", "X"))
        self.assertEqual(left.one(1, "?2").line("Y", race_of("A", "X", "B", "C")), "BEFORE 1 Y C")

    def test_side_by_side(self) -> None:
        """The order is A, ?1, ?2, and nobody finished between those two."""
        both = [kept("?1", "A"), kept("?2", "A")]
        left = waiting(*both, known("?1", "X"))
        self.assertEqual(left.one(1, "?2").line("Y", race_of("A", "X", "B")), "BEFORE 1 Y B")
        left = waiting(*both, dropped("?1"))
        self.assertEqual(left.one(1, "?2").line("Y", race_of("A", "X", "B")), "BEFORE 1 Y X")

    def test_kept_again(self) -> None:
        """The order is A, ?1, ?2. She wasn't X, so her old place is kept again, and X may be behind ?2."""
        notes = [kept("?1", "A"), kept("?2", "A"), known("?1", "X"), kept("?1", "A")]
        self.assertEqual(waiting(*notes).marks(1), ["?1", "?2"])
        self.assertEqual(waiting(*notes).one(1, "?2").line("Y", race_of("A", "B", "X")), "BEFORE 1 Y B")

    def test_marks(self) -> None:
        """A mark that was given in a race stays hers, and is never another's."""
        three = [kept("?1", "A"), kept("?2", "A"), kept("?1", "", 2), kept("?3", "A")]
        found = waiting(*three)
        self.assertEqual((found.marks(1), found.marks(2)), (["?1", "?2", "?3"], ["?1"]))
        self.assertRaisesRegex(NotSent, r"type \?1, \?2 or \?3 and her sail", found.one, 1, "?")
        for ended in (known("?1", "X"), dropped("?1")):
            left = waiting(*three, ended)
            self.assertEqual(left.marks(1), ["?2", "?3"])
            self.assertRaisesRegex(NotSent, r"no finisher \?1 is kept in race 1, only \?2 and \?3\. Race 2 "
                                            r"has "
                                   "one: type at 2 first", left.one, 1, "?1")
            self.assertEqual((left.next_mark(1), left.next_mark(2), left.next_mark(3)), ("?4", "?2", "?1"))
        left = waiting(*three, *map(dropped, ("?1", "?2", "?3")))
        self.assertEqual((left.marks(1), left.one(2, "?").mark, left.next_mark(1)), ([], "?1", "?4"))
        self.assertRaises(NotSent, left.one, 1, "?0")

    def test_marks_after_a_loss(self) -> None:
        """A line of the file can't be read: nobody else gets the mark of a finisher who is still there."""
        for lost in ("?1", "101?"):
            left = waiting(*[kept(mark) for mark in ("?1", "?2", "101?", "101?2") if mark != lost])
            self.assertEqual((left.next_mark(1), left.next_mark(1, "101")), ("?3", "101?3"))

    def test_marks_of_numbers(self) -> None:
        """What was typed of a sail is in her mark; the second of a number has a number of her own."""
        found = waiting(kept("?1"), kept("101?"), kept("101?2"), kept("?2"), dropped("101?"))
        self.assertEqual((found.next_mark(1, "101"), found.next_mark(1, "1"), found.next_mark(1)),
                         ("101?3", "1?", "?3"))
        self.assertEqual(found.one(1, "101?2").typed, "101")
        self.assertRaises(NotSent, found.one, 1, "101?")
        self.assertEqual(marks_by_race(found.all), "?1, 101?2 and ?2 in race 1")

    def test_place_on_the_water(self) -> None:
        """Boats with a code have no place, and a finisher ahead of her has one, read or not."""
        race = race_of("A", "BC", "D")
        found = waiting(kept("?1"), kept("101?", "ABC"), kept("?2", "ABC"))
        self.assertEqual(found.places(race), {"?1": "1st", "101?": "5th", "?2": "6th"})
        race.codes["B"] = "OCS"
        self.assertEqual(found.places(race), {"?1": "1st", "101?": "4th", "?2": "5th"})

    def test_time(self) -> None:
        """However many places were kept, a tap hardly takes longer: of each there is one thing to work out. So it is with
        places that have ended."""
        journal = [f"FINISH 1 {sail}" for sail in "ABC"]
        notes = [kept(f"?{at}", "ABC", entries=3) for at in range(1, 3001)]
        notes += [dropped(f"?{at}") for at in range(1, 3001, 2)]
        before = time.thread_time()
        found = waiting(*notes, journal=journal)
        self.assertLess(time.thread_time() - before, 1)
        self.assertEqual([one.mark for one in found.all], [f"?{at}" for at in range(2, 3001, 2)])
        self.assertEqual({frozenset(one.ahead) for one in found.all}, {frozenset("ABC")})


if __name__ == "__main__":
    unittest.main()
