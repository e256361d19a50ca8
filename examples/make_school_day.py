#!/usr/bin/env python3
"""Makes school.day: 120 groups, 90 stations, 46 rooms, 500 meetings; station 7, the forge, is the busiest, with 11.

Run it in this folder. The choices come from a generator that is written out here, so that every run makes the same bytes.
"""

GROUPS, STATIONS, ROOMS, MEETINGS = 120, 90, 46, 500
FORGE, FORGE_MEETINGS, MOST = 7, 11, 10


def choices(seed):
    """Numbers that look random: a linear congruential generator, its upper bits."""
    state = seed
    while True:
        state = (state * 6364136223846793005 + 1442695040888963407) % 2**64
        yield state >> 33


def school_day():
    draw = choices(2026)
    held = [0] * STATIONS
    meetings = []
    seen = set()

    def agree(group, station):
        meetings.append((group, station))
        seen.add((group, station))
        held[station] += 1

    # Every eleventh group goes to the forge; then each group has four meetings, and the first twenty have five.
    for group in range(0, FORGE_MEETINGS * 11, 11):
        agree(group % GROUPS, FORGE)
    for group in range(GROUPS):
        wanted = 5 if group < MEETINGS - 4 * GROUPS else 4
        while sum(1 for g, _ in meetings if g == group) < wanted:
            station = next(draw) % STATIONS
            if station != FORGE and held[station] < MOST and (group, station) not in seen:
                agree(group, station)
    # As the school notes them down: in no order.
    for i in range(len(meetings) - 1, 0, -1):
        j = next(draw) % (i + 1)
        meetings[i], meetings[j] = meetings[j], meetings[i]
    return meetings


def main():
    meetings = school_day()
    assert len(meetings) == MEETINGS
    busiest = max(
        max(sum(1 for g, _ in meetings if g == group) for group in range(GROUPS)),
        max(sum(1 for _, s in meetings if s == station) for station in range(STATIONS)),
    )
    assert busiest == FORGE_MEETINGS
    head = bytes([GROUPS, STATIONS, ROOMS, MEETINGS % 256, MEETINGS // 256])
    with open("school.day", "wb") as out:
        out.write(head + bytes(number for meeting in meetings for number in meeting))


if __name__ == "__main__":
    main()
