#!/usr/bin/env python3
"""Makes the pictures of the office's pages in docs/ from the pages as they are: web_screens.py [FOLDER]

They show an afternoon of the Autumn Cup: the finish on a phone and in the dark, a scorer and a jury at a desk.
"""
from __future__ import annotations

import os
import sys

HERE = os.path.dirname(os.path.abspath(__file__))
sys.path.insert(1, os.path.dirname(HERE))
import browser  # noqa: E402
from devices import Chromium, Device  # noqa: E402
from screens import shrink  # noqa: E402
from stub_office import StubOffice  # noqa: E402
from web_office import SAILS  # noqa: E402

NAMES = ["office-finish.png", "office-finish-dark.png", "office-scorer.png", "office-jury.png"]
LIVE = "document.querySelector('#link')?.dataset.state === 'live'"


def opened(chromium: Chromium, office: StubOffice, role: str, width: int, height: int, scale: float = 1) -> Device:
    device = Device(chromium, width, height, scale, touch=width < 1000)
    device.open(office.address(f"/office/{role}/"))
    device.until(LIVE)
    return device


def shot(device: Device, path: str) -> None:
    device.ask("Page.bringToFront")
    device.run("new Promise(done => requestAnimationFrame(() => requestAnimationFrame(done)))")
    device.shot(path)
    shrink(path)


def pictures(folder: str) -> list[str]:
    """Makes the pictures; their paths."""
    chromium, office = Chromium(), StubOffice()
    paths = [os.path.join(folder, name) for name in NAMES]
    try:
        phone = opened(chromium, office, "finish", 390, 844, 2)
        phone.until("document.querySelectorAll('#list li').length === 8 && document.querySelector('#clock').textContent !== ''")
        for path in paths[:2]:
            phone.colours(path == paths[1])
            shot(phone, path)
        scorer = opened(chromium, office, "scorer", 1280, 860)
        scorer.until("document.querySelectorAll('.order tbody tr').length > 7")
        shot(scorer, paths[2])
        jury = opened(chromium, office, "jury", 1280, 860)
        jury.until("!!document.querySelector('#race option')")
        jury.type("#race", "1")
        jury.click("#boat")
        jury.click(f"dialog button[data-sail={SAILS[3]}]")
        jury.click("#what-DSQ")
        jury.until("!!document.querySelector('#send')")
        shot(jury, paths[3])
    finally:
        chromium.close()
        office.close()
    return paths


def main() -> int:
    if len(sys.argv) > 2:
        sys.exit("usage: tests/web_screens.py [FOLDER]")
    if not browser.program():
        print("not tried: pictures of the office's pages: Chromium isn't installed")
        return 0
    folder = sys.argv[1] if len(sys.argv) == 2 else os.path.join(os.path.dirname(HERE), "docs")
    for path in pictures(folder):
        print(f"{path}: {os.path.getsize(path) // 1024} KB")
    return 0


if __name__ == "__main__":
    sys.exit(main())
