"""What the bytes of a list, of a row of changes and of a plan say, and for what they are refused. It shares nothing with the crates."""

NONE = 65535


class Refused(Exception):
    def __str__(self):
        number, place = self.args
        return f"refused {number} at {place}"


def fewest(groups, stations, rooms, meetings):
    busiest = 0
    for side, parties in ((0, groups), (1, stations)):
        for party in range(parties):
            busiest = max(busiest, sum(1 for m in meetings if m[side] == party))
    return max(busiest, -(-len(meetings) // rooms))


def refuse_length(data, length):
    """Refuses bytes that end too early, or go on."""
    if len(data) != length:
        raise Refused(1, min(len(data), length))


def list_of(data):
    """Groups, stations, rooms and meetings that the bytes say."""
    if len(data) < 5:
        raise Refused(1, len(data))
    for place in range(3):
        if not 1 <= data[place] <= 120:
            raise Refused(2, place)
    many = data[3] + 256 * data[4]
    if many > 4000:
        raise Refused(3, 3)
    parties = data[5:5 + 2 * many]
    for i, party in enumerate(parties):
        if party >= data[i % 2]:
            raise Refused(4, 5 + i)
    refuse_length(data, 5 + 2 * many)
    return data[0], data[1], data[2], list(zip(parties[::2], parties[1::2]))


def changes_of(data, groups, stations):
    """The changes that the bytes say, one by one: the kind, and the two bytes of what it names."""
    at = 0
    while at < len(data):
        kind, at = data[at], at + 1
        named = data[at:at + 2] if kind in (0, 1) else b""
        if kind == 0:
            for i, party in enumerate(named):
                if party >= (groups, stations)[i]:
                    raise Refused(4, at + i)
        if kind in (0, 1) and len(named) < 2:
            raise Refused(1, len(data))
        yield kind, tuple(named)
        at += len(named)


def checked(day, data):
    """The number of rounds and the round of each meeting that an acceptable plan says, none for a dropped one."""
    groups, stations, rooms, meetings = day
    refuse_length(data, 2 + 2 * len(meetings))
    many, *rounds = [data[i] + 256 * data[i + 1] for i in range(0, len(data), 2)]
    there = [i for i, round in enumerate(rounds) if round != NONE]
    for i in there:
        if rounds[i] >= many:
            raise Refused(7, i)
    seen = set()
    for i in there:
        for side in (0, 1):
            if (rounds[i], side, meetings[i][side]) in seen:
                raise Refused(8, i + 8192 * side)
            seen.add((rounds[i], side, meetings[i][side]))
    for c in sorted(set(rounds[i] for i in there)):
        if sum(1 for i in there if rounds[i] == c) > rooms:
            raise Refused(9, c)
    if many != fewest(groups, stations, rooms, [meetings[i] for i in there]):
        raise Refused(10, many)
    return many, [None if round == NONE else round for round in rounds]
