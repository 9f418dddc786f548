"""An office in browsers to try the pages with: `raceoffice serve` over the real program, and its devices."""
from __future__ import annotations

import contextlib
import datetime
import http.client
import json
import os
import re
import signal
import subprocess
import time
import unittest

import browser
import helpers
from devices import LATER, Chromium, Device, Line, chromium_of

NAMES = """GBR 101,Kestrel,A. Moss|GBR 7,Sea Pink,J. Hale|NED 12,Windhover,P. de Wit|FRA 9,Plover,C. Blanc
GBR 33,Turnstone,R. Shaw|IRL 5,Curlew,M. Byrne|DEN 61,Terne,L. Holm|GER 412,Möwe,H. Jansen|GBR 118,Dunlin,E. Frost
NED 45,Scholekster,W. Bakker|IRL 55,Redshank,O. Roche|GBR 204,Fulmar,T. Lyle|SWE 86,Tärna,K. Lind|GBR 77,Gannet,S. Pryce
FRA 31,Macareux,Y. Kerr|GBR 260,Petrel,D. Okoro|BEL 14,Sterna,F. Maes|GBR 98,Shelduck,N. Reid|GER 23,Kiebitz,U. Brandt
GBR 312,Whimbrel,C. Daly|POR 8,Gaivota,R. Sousa|GBR 150,Avocet,L. Marsh|NED 66,Lepelaar,J. Vos|GBR 41,Eider,P. Nunn"""
BOATS = [one.split(",") for one in NAMES.replace("\n", "|").split("|")]
SAILS = [boat[0].replace(" ", "") for boat in BOATS]
FOLKBOATS = [["GBR 33", "Fulmar", "I. Voss"], ["NED 80", "Sterna", "K. Prins"], ["SWE 2", "Vind", "A. Berg"],
             ["GER 19", "Luv", "T. Ott"]]
LINK = re.compile(r"https?://\S+?(/office/in#(finish|jury|scorer)\.[\w-]+)")


def zone_of_afternoon() -> str:
    """A time zone in which it is between two and three o'clock in the afternoon."""
    east = 14 - datetime.datetime.now(datetime.timezone.utc).hour
    return f"Etc/GMT{-east:+d}" if east else "Etc/GMT"


def entries_of(boats: list[list[str]]) -> str:
    return "Sail,Boat,Helm\n" + "".join(",".join(boat) + "\n" for boat in boats)


@unittest.skipUnless(browser.program(), "Chromium isn't installed")
class WebTrial(helpers.Series):
    """A trial with `raceoffice serve` in its folder, and devices that come to it."""
    classes: dict[str, str] = {"cup": entries_of(BOATS)}
    settings: dict[str, str] = {"exclude": "4"}
    titles = {"cup": "Autumn Cup", "fleet": "Folkboats"}
    # The links that are printed at the beginning
    roles = 3
    # What is typed in its window
    typed = ""
    chromium: Chromium
    web: subprocess.Popen[bytes] | None = None

    def setUp(self) -> None:
        super().setUp()
        os.remove(os.path.join(self.here, "cup", "entries.csv"))
        os.remove(os.path.join(self.here, "cup", "series.ini"))
        os.rmdir(os.path.join(self.here, "cup"))
        for name, entries in self.classes.items():
            more = {"class": self.titles[name]} if len(self.classes) > 1 else {}
            self.make(name, entries, title=self.titles[name], **self.settings, **more)
        self.port = helpers.free_port(self)
        self.links: dict[str, str] = {}
        self.addCleanup(self.end)
        self.chromium = chromium_of(self)
        self.start()

    # The office

    @property
    def output(self) -> str:
        return os.path.join(self.here, "serve.txt")

    def command(self) -> list[str]:
        return [*helpers.COMMAND, "serve", *self.classes, "--http", str(self.port)]

    def start(self) -> None:
        """Opens the office in browsers, and waits until it answers."""
        self.write(self.typed, "typed.txt")
        with open(self.output, "ab") as out, open(os.path.join(self.here, "typed.txt"), "rb") as typed:
            self.web = subprocess.Popen(self.command(), cwd=self.here, stdin=typed, stdout=out,
                                        stderr=subprocess.STDOUT)
        helpers.until("an office in browsers", self.is_ready)

    def is_ready(self) -> bool:
        said = self.text("serve.txt")
        if self.web is None or self.web.poll() is not None:
            raise AssertionError(said)
        self.links |= {role: path for path, role in LINK.findall(said)}
        return len(self.links) == self.roles and self.is_answering()

    def is_answering(self) -> bool:
        link = http.client.HTTPConnection("127.0.0.1", self.port, timeout=10)
        try:
            link.request("GET", "/office/in")
            return link.getresponse().status == 200
        except (OSError, http.client.HTTPException):
            return False
        finally:
            link.close()

    def kill_web(self) -> None:
        assert self.web
        self.web.kill()
        self.web.wait()

    def kill_program(self, name: str = "cup") -> None:
        """Kills the program that serves a class."""
        with open(os.path.join(self.here, name, "office", "pid"), encoding="ascii") as file:
            os.kill(int(file.read().split()[0]), signal.SIGKILL)

    def end(self) -> None:
        if self.web is not None and self.web.poll() is None:
            self.web.send_signal(signal.SIGTERM)
            with contextlib.suppress(subprocess.TimeoutExpired):
                self.web.wait(helpers.PATIENCE)
            self.kill_web()
        for name in self.classes:
            helpers.kill_office(os.path.join(self.here, name))

    def journal(self, name: str = "cup") -> list[str]:
        """The roles and commands of the journal, without the boats that were entered first."""
        lines = self.text(name, "journal.txt").splitlines()[1:]
        entries = [line.split(maxsplit=2)[2] for line in lines]
        return [entry for entry in entries if not entry.startswith("SCORER ENTER")]

    # Devices

    def address(self, path: str, port: int = 0) -> str:
        return f"http://127.0.0.1:{port or self.port}{path}"

    def line(self) -> Line:
        """A network that can be cut, between a device and the office."""
        line = Line(self.port)
        self.addCleanup(line.close)
        return line

    def device(self, role: str, name: str, width: int = 1280, height: int = 800, port: int = 0,
               **looks: bool | str) -> Device:
        """A device that has come by the link of a role."""
        device = Device(self.chromium, width, height, touch=width < 1000, dark=looks.get("dark") is True,
                        language=str(looks.get("language", "en")))
        device.come(self.address(self.links[role], port), name)
        return device

    def phone(self, name: str = "Ann’s phone", width: int = 390, height: int = 844, port: int = 0,
              **looks: bool | str) -> Device:
        """A phone at the finish."""
        return self.device("finish", name, width, height, port, **looks)

    def settle(self, *devices: Device) -> None:
        """Waits until nothing is on its way any more."""
        for device in devices:
            device.until("document.querySelector('#link').dataset.state === 'live'"
                         " && !Object.keys(localStorage).some(key => key.startsWith('tap:'))")

    def later(self, *devices: Device) -> None:
        """Waits until what is tapped next on one of these devices is later than what was tapped on the others, also by the
        office's clock as each knows it: they are to say in which order they were tapped."""
        ahead = [device.is_ahead() for device in devices]
        time.sleep(max(ahead) - min(ahead) + LATER / 1000)

    def need_no_faults(self) -> None:
        self.assertEqual(self.chromium.faults, [])


class NewOffice(WebTrial):
    """`raceoffice serve` in a folder that has nothing but the programs."""
    classes: dict[str, str] = {}

    def start(self) -> None:
        for name, program in (("regatta", helpers.PROGRAM), ("times", helpers.TIMES)):
            if not os.path.lexists(os.path.join(self.here, name)):
                os.symlink(program, os.path.join(self.here, name))
        super().start()

    def upload(self, device: Device, name: str, data: bytes) -> None:
        """Chooses a file on the page of a new series."""
        device.until("!!document.querySelector('#list')")
        device.run(f"""(() => {{
            const files = new DataTransfer();
            files.items.add(new File([new Uint8Array({json.dumps(list(data))})], {json.dumps(name)}));
            const field = document.querySelector("#list");
            field.files = files.files;
            field.dispatchEvent(new Event("change", {{bubbles: true}}));
        }})()""")


def finishes(*sails: str, race: int = 1) -> list[str]:
    return [f"FINISH FINISH {race} {sail.replace(' ', '')}" for sail in sails]
