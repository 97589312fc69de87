#!/usr/bin/env python3
"""Lays the recorded cases and their right answers beside the program that replays them.

Run: python3 tools/oracle/record.py; it takes all lists, one after the other, and writes crates/replay/stdin and stdout.
The answers are the oracle's (out/) and the original crate's (host/recorded/), but for those of the crate that
host/recorded/departures lists, in whose stead stands what is due of ours: no program of this repository is asked.
"""

import pathlib

import records

HERE = pathlib.Path(__file__).resolve().parent
ROOT = HERE.parent.parent
ORACLE, CRATE, PROGRAM = HERE / "out", ROOT / "host" / "recorded", ROOT / "crates" / "replay"
BOTH = [(folder, name) for folder in (ORACLE, CRATE) for name in ("opened", "built", "read")]
LISTS = BOTH + [(ORACLE, name) for name in ("amended", "held", "places", "commands")]


def departures(folder, name):
    """The answers that are due of ours where they are not those of the list, by the place of the case in it."""
    lines = (CRATE / "departures").read_text().splitlines() if folder == CRATE else []
    rows = [line.split(" ") for line in lines]
    return {int(place): due for of, place, _, due in rows if of == name}


def cases(folder, name):
    """The bodies of a list, whose recorded answers the oracle must still give, and no other but at a departure."""
    bodies = records.read_file((folder / f"{name}.stdin").read_bytes())
    recorded = (folder / f"{name}.stdout").read_text().splitlines()
    for place, due in departures(folder, name).items():
        assert recorded[place] != due, (name, place)
        recorded[place] = due
    assert records.answers(bodies).splitlines() == recorded, name
    return bodies


def main():
    bodies = [body for folder, name in LISTS for body in cases(folder, name)]
    (PROGRAM / "stdin").write_bytes(records.write_file(bodies))
    (PROGRAM / "stdout").write_text(records.answers(bodies))
    print(f"{len(bodies)} cases")


main()
