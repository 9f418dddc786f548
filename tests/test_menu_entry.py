"""The menu entry of a release: it opens the page on which a series is made."""
from __future__ import annotations

import os
import re
import subprocess
import tempfile
import unittest

import helpers


class Entry(unittest.TestCase):
    def test_command(self) -> None:
        """Its command serves the folder `regatta` of this account, which it makes, and opens the browser."""
        with open(os.path.join(helpers.TOP, "packaging", "raceoffice.desktop"), encoding="utf-8") as file:
            found = re.search(r'^Exec=bash -c "([^"\\$`]*)"$', file.read(), re.MULTILINE)
        assert found
        with tempfile.TemporaryDirectory() as home:
            fake = os.path.join(home, "raceoffice")
            with open(fake, "w", encoding="utf-8") as file:
                file.write('#!/bin/sh\necho "$PWD" "$@"\n')
            os.chmod(fake, 0o755)
            for _ in range(2):
                done = subprocess.run(["bash", "-c", found[1]], cwd="/", text=True, capture_output=True, stdin=subprocess.DEVNULL,
                                      env={"HOME": home, "PATH": f"{home}:{os.environ['PATH']}"})
                self.assertEqual(done.stdout, f"{os.path.join(home, 'regatta')} serve --browser\n", done.stderr)


if __name__ == "__main__":
    unittest.main()
