"""No tap is lost or done twice: the web, or the office's program, is killed before each step of each kind of tap, and the
same tap again does the whole."""
from __future__ import annotations

import unittest

from raceoffice.series.kept_places import History
from test_web_kills import FILES, WHOLE, Held, Sent, Trial, lines_of, tap_of

PLACES = "office/places"
KEPT = Sent("FINISH", ("line", "cup"), tap_of(1, "? 1", behind="GBR101"))


class Taps(Trial):
    """The taps of a finish page. What they leave of the places that are kept is compared, too."""
    names = (*WHOLE, "journal.txt", PLACES, *FILES[-2:])

    def same(self, found: Held, after: Held) -> None:
        super().same(found, after)
        self.assertEqual(places_of(found), places_of(after))

    def tapped(self, line: str, *wanted: str, **more: object) -> None:
        """Kills at each step of a tap that changes these files."""
        self.each_step(Sent("FINISH", ("line", "cup"), tap_of(2, line, **more)), wanted=wanted)

    def begin(self, *before: Sent) -> None:
        """A race with a finisher, and then these taps."""
        self.serving()
        self.typed("FINISH FINISH 1 GBR101")
        if before:
            self.asked(before)
            self.settle()

    def undone(self, line: str, **more: object) -> None:
        """Kills at each step of a tap that is undone then."""
        self.each_undone(Sent("FINISH", ("line", "cup"), tap_of(2, line, **more)))

    def race_shown(self, held: Held) -> object:
        return super().race_shown(held), order_of(held)

    def test_finish(self) -> None:
        self.begin()
        self.tapped("FINISH 1 GBR7", "journal.txt", behind="GBR101")
        self.undone("FINISH 1 GBR7", behind="GBR101")

    def test_place(self) -> None:
        self.begin()
        self.tapped("? 1", PLACES, behind="GBR101")
        self.undone("? 1", behind="GBR101")

    def test_known(self) -> None:
        self.begin(KEPT)
        self.typed("FINISH FINISH 1 NED12")
        self.tapped("?1 1 GBR7", "journal.txt", PLACES)

    def test_known_undone(self) -> None:
        """Her place is kept again."""
        self.begin(KEPT)
        self.typed("FINISH FINISH 1 NED12")
        self.undone("?1 1 GBR7")

    def test_known_undone_twice(self) -> None:
        """A boat is put into her place again: the undo of that undo is a line, and another one takes it back."""
        self.begin(KEPT)
        self.typed("FINISH FINISH 1 NED12")
        undone = tap_of(3, "UNDO", undoes=tap_of(2)["id"])
        self.asked([Sent("FINISH", ("line", "cup"), one) for one in (tap_of(2, "?1 1 GBR7"), undone)])
        self.settle()
        again = tap_of(4, "UNDO", undoes=undone["id"])
        self.each_step(Sent("FINISH", ("line", "cup"), again), wanted=("journal.txt", PLACES))
        self.each_undone(Sent("FINISH", ("line", "cup"), again))

    def test_struck(self) -> None:
        """She comes back ahead of the place that she was ahead of."""
        self.begin(KEPT)
        self.typed("FINISH FINISH 1 NED12")
        self.undone("STRIKE 1 GBR101")

    def test_code(self) -> None:
        self.begin()
        self.undone("MARK 1 GBR7 OCS")

    def test_dropped(self) -> None:
        self.begin(KEPT)
        self.tapped("?1 1 NONE", PLACES)
        self.undone("?1 1 NONE")

    def test_undo(self) -> None:
        self.begin(Sent("FINISH", ("line", "cup"), tap_of(1, "FINISH 1 GBR7", behind="GBR101")))
        self.tapped("UNDO", "journal.txt", undoes=tap_of(1)["id"])

    def test_penalty(self) -> None:
        self.begin()
        self.tapped("PENALTY 1 GBR7 ZFP", "journal.txt")


def order_of(held: Held) -> list[list[str]]:
    """The order of race 1, with the places that are kept."""
    history = History.read(held.get(PLACES, b""), [line.split(maxsplit=1)[1] for line in lines_of(held)])
    return history.order(1).standing(history.waiting.marks(1))


def places_of(held: Held) -> list[tuple[int, str]]:
    """The places that are kept, each with its race."""
    commands = [line.split(maxsplit=3)[3] for line in held["journal.txt"].decode().splitlines()[1:]]
    return sorted((unread.race, unread.mark) for unread in History.read(held.get(PLACES, b""), commands).waiting.all)


if __name__ == "__main__":
    unittest.main()
