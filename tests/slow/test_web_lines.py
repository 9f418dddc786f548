"""Five devices tap over lines that drop at random, two hundred times in all: the journal is the taps, six hundred of
each."""
from __future__ import annotations

import os
import random
import unittest

import helpers
from web_devices import Web, list_of
from web_lines import played

BOATS: list[tuple[str, ...]] = [(f"GBR {number}", f"Boat {number}", "A. Helm") for number in range(1, 101)]
DEVICES, RACES, FINISHERS, DROPS = 5, 3, 100, 200


def plan_of(device: int) -> list[str]:
    """The lines of a device, in races of its own."""
    return [line for race in range(device * RACES + 1, (device + 1) * RACES + 1) for number in range(1, FINISHERS + 1)
            for line in (f"FINISH {race} GBR{number}", f"PENALTY {race} GBR{number} ZFP")]


class Drops(Web):
    def prepare(self) -> None:
        self.write(list_of(BOATS), "cup", "entries.csv")

    def test_drops(self) -> None:
        """Each tap is once in the journal, and those of a device are in its order."""
        for _ in range(helpers.trials(1)):
            seed = int(os.environ.get("SEED", "") or random.randrange(1 << 32))
            owners = [self.device("finish", f"Device {at}") for at in range(DEVICES)]
            plans = [plan_of(at) for at in range(DEVICES)]
            senders, drops = played(self.port, owners, plans, DROPS, seed, self.until)
            self.assertEqual([sender.wrong for sender in senders], [[]] * DEVICES, f"SEED={seed}")
            self.assertEqual(drops, DROPS)
            # Lines that dropped were noticed.
            self.assertGreater(sum(sender.again for sender in senders), DROPS // 4)
            journal = self.journal()
            for plan in plans:
                mine = set(plan)
                self.assertEqual([line.removeprefix("FINISH ") for line in journal
                                  if line.removeprefix("FINISH ") in mine], plan, f"SEED={seed}")
            self.assertEqual(len(journal), sum(map(len, plans)))

    @staticmethod
    def until(what: str, holds: object) -> None:
        assert callable(holds)
        helpers.until(what, holds, 800)


if __name__ == "__main__":
    unittest.main()
