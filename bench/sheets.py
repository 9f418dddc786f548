#!/usr/bin/env python3
"""Measures the memory of `regatta serve` while sixteen clients ask for SHOW at one time.

    bench/sheets.py PROGRAM..

An office opens with the journal of a season of 40 races (season.py): first one of 200 boats and at
most 4,000 entries, then one as large as a series may grow. Sixteen clients ask for SHOW at the same
moment, three times; each time they wait until all have their sheets. The peak memory of each PROGRAM
is printed.
"""
import argparse
import os
import sys
import tempfile
import threading
from concurrent.futures import ThreadPoolExecutor

from season import BOATS, ENTRIES, RACES, journal, season, text
from serve import PATIENCE, SEATS, Server, begin, first_link, read_sheet

TIMES = 3
SEASONS = ((200, 4000), (BOATS, ENTRIES))


def show(path, together):
    """One client's SHOWs, each sent when all clients are ready."""
    client = first_link(path)
    for _ in range(TIMES):
        together.wait(PATIENCE)
        read_sheet(client)
    client.ask("QUIT")
    client.close()


def peak(server):
    """The peak memory of an office, in MiB, once all clients were shown their sheets."""
    together = threading.Barrier(SEATS)
    with ThreadPoolExecutor(SEATS) as pool:
        for client in [pool.submit(show, server.path, together) for _ in range(SEATS)]:
            client.result()
    memory = server.memory()
    begin(server, [])
    status, _, errors = server.end()
    if status != 0:
        sys.exit(f"the program ended with status {status}: {errors.decode()}")
    return memory


def measured(program, entries):
    """The peak memory of an office that opens with these entries, in MiB."""
    with tempfile.TemporaryDirectory() as folder:
        start = os.path.join(folder, "journal")
        with open(start, "wb") as file:
            file.write(text(entries))
        server = Server([program, "serve", "--journal", start], SEATS, SEATS + 1)
        try:
            return peak(server)
        finally:
            server.program.kill()


def main():
    parser = argparse.ArgumentParser(usage=__doc__.split("\n\n")[1])
    parser.add_argument("programs", nargs="+")
    asked = parser.parse_args()
    for boats, most in SEASONS:
        entries = journal(season(boats, RACES, most))
        for program in asked.programs:
            print(f"{program}: {boats} boats, {len(entries)} entries: "
                  f"{measured(program, entries):.1f} MiB at most")
    return 0


if __name__ == "__main__":
    sys.exit(main())
