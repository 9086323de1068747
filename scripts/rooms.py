#!/usr/bin/python3
"""Looks whether each definition of crates/*/specs stands in its room.

    rooms.py            a line for each that does not; exit status 1 where there is one
    rooms.py --test     show that a definition in a wrong room is found

specs/ itself has what the contract of a call or of a C function rests on. What besides only statements of theorems rest on stands in specs/claims:
statements are what docs/CLAIMS.md links to, and all of a file whose name ends in Claims. Tables of examples stand in specs/examples. All else stands in
specs/work: only contracts of parts and proofs cite it.
"""
import pathlib
import re
import sys

import reading

TABLES = "examples"


def room_of(file):
    """The room in which a file stands; the empty word for specs/ itself."""
    parts = file.split("/")
    return parts[3] if len(parts) > 4 else ""


def stated(house, claims):
    """The statements of theorems, tables apart."""
    linked = set(re.findall(r"\[`([^`\s]+)`\]\(\.\./(crates/\w+/specs/[\w/]+\.antt)", claims))
    return {
        (key, name)
        for key, names in house.defined.items()
        for name in names
        if "/specs/" in key and room_of(key) != TABLES and ((name, key) in linked or pathlib.PurePath(key).stem.endswith("Claims") and room_of(key))
    }


def rooms(house, claims):
    """The room of each definition, tables apart."""
    found = {}
    for room, items in (("", house.behind_calls()), ("claims", house.closure(stated(house, claims)))):
        for one in items:
            if room_of(one[0]) != TABLES:
                found.setdefault(one, room)
    return found


def misplaced(house, claims):
    asked = rooms(house, claims)
    told = []
    for key, names in house.defined.items():
        room = room_of(key)
        if "/specs/" not in key or room == TABLES:
            continue
        for name in names:
            wanted = asked.get((key, name), "work")
            if wanted != room:
                told.append(f"{key}: {name} belongs into specs/{wanted}")
    return told


def test(house, claims):
    """Each definition that is put into another room is told, and nothing is as it stands."""
    assert not misplaced(house, claims), misplaced(house, claims)
    asked = rooms(house, claims)
    call = next(one for one in asked if asked[one] == "" and one[0].endswith(".antt"))
    claim = next(one for one in asked if asked[one] == "claims")
    work = next((key, name) for key, names in house.defined.items() if room_of(key) == "work" for name in names)
    for key, name in (call, claim, work):
        lines = house.defined[key].pop(name)
        other = next(one for one in house.defined if "/specs/" in one and room_of(one) not in (room_of(key), TABLES))
        house.defined[other][name] = lines
        house.lines[other] = house.lines[other] + [""] * lines[1]
        if not misplaced(house, claims):
            raise SystemExit(f"rooms: {name} in {other} is not told")
        del house.defined[other][name]
        house.defined[key][name] = lines
    print("rooms: definitions in wrong rooms are found")


def main(words):
    house = reading.House(reading.ROOT)
    claims = (reading.ROOT / "docs/CLAIMS.md").read_text(encoding="utf8")
    if words == ["--test"]:
        return test(house, claims)
    told = misplaced(house, claims)
    for line in told:
        print("rooms: " + line, file=sys.stderr)
    if told:
        raise SystemExit(1)
    count = sum(len(names) for key, names in house.defined.items() if "/specs/" in key)
    print(f"rooms: {count} definitions stand where they belong")
    return None


if __name__ == "__main__":
    main(sys.argv[1:])
