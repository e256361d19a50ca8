#!/usr/bin/env python3
"""Makes school.changes: 50 changes of school.day, one after the other.

The heating fails in four rooms, which are given up. Groups agree on 18 more meetings and drop 18, by turns. The four rooms can be
used again. The forge takes three more groups; two of them do not come, and their meetings are dropped. A room more is got.

Run it in this folder, where make_school_day.py is. The choices come from the generator in there, with a seed of their own.
"""

from make_school_day import FORGE, GROUPS, MEETINGS, STATIONS, choices

ADD, DROP, GIVE_ROOM_UP, GET_ROOM = range(4)
ROOMS_WITHOUT_HEATING, TURNS = 4, 18


def school_changes():
    draw = choices(714)
    there = list(range(MEETINGS))
    numbers = MEETINGS
    row = []

    def add(group, station):
        nonlocal numbers
        row.append(bytes([ADD, group, station]))
        there.append(numbers)
        numbers += 1
        return numbers - 1

    def drop(meeting):
        row.append(bytes([DROP, meeting % 256, meeting // 256]))
        there.remove(meeting)

    row.extend(bytes([GIVE_ROOM_UP]) for _ in range(ROOMS_WITHOUT_HEATING))
    for _ in range(TURNS):
        group, station = next(draw) % GROUPS, next(draw) % STATIONS
        add(group, station)
        drop(there[next(draw) % len(there)])
    row.extend(bytes([GET_ROOM]) for _ in range(ROOMS_WITHOUT_HEATING))
    at_forge = [add(group, FORGE) for group in (1, 2, 3)]
    for meeting in at_forge[:2]:
        drop(meeting)
    row.append(bytes([GET_ROOM]))
    return row


def main():
    row = school_changes()
    assert len(row) == 50
    with open("school.changes", "wb") as out:
        out.write(b"".join(row))


if __name__ == "__main__":
    main()
