#!/usr/bin/env python3
"""The plan of a day by the rule, worked on the list of rounds alone: rule.py DAY prints it, with the number of looks.

rule.py [--looks] DAY CHANGES makes the changes after it, and prints what each comes to; with --looks also the looks of each, and
the plan after the last. rule.py --sheets DAY prints the sheets of the plan instead. It shares nothing with the crates.
"""
import sys

from rule_bytes import NONE, Refused, changes_of, fewest, list_of


def meeting_of(meetings, rounds, side, party, round):
    """The meeting that a party has in a round."""
    for i, meeting in enumerate(meetings):
        if meeting[side] == party and rounds[i] == round:
            return i
    return None


def put_in(meetings, rounds, many, new):
    """Gives the new meeting a round, and answers the looks."""
    def free(side, round):
        return meeting_of(meetings, rounds, side, meetings[new][side], round) is None

    for round in range(many):
        if free(0, round) and free(1, round):
            rounds[new] = round
            return 1
    a = next(c for c in range(many) if free(0, c))
    b = next(c for c in range(many) if free(1, c))
    chain, side, round = [], 1, a
    at = meeting_of(meetings, rounds, 1, meetings[new][1], a)
    while at is not None:
        chain.append(at)
        side, round = 1 - side, a + b - round
        at = meeting_of(meetings, rounds, side, meetings[at][side], round)
    for i in chain:
        rounds[i] = a + b - rounds[i]
    rounds[new] = a
    return 1 + len(chain)


def parts(meetings, rounds, a, b):
    """The parts of two rounds, in the order of their lowest meeting: lists of the meetings that groups and stations link."""
    left = [i for i, round in enumerate(rounds) if round in (a, b)]
    while left:
        part, todo = [], [left[0]]
        while todo:
            i = todo.pop()
            if i in left:
                left.remove(i)
                part.append(i)
                todo += [j for j in left if meetings[i][0] == meetings[j][0] or meetings[i][1] == meetings[j][1]]
        yield part


def even_out(meetings, rounds, many):
    """Exchanges parts until no two rounds differ by more than one, and answers the looks."""
    looks = 0
    while many:
        sizes = [rounds.count(c) for c in range(many)]
        a, b = sizes.index(max(sizes)), sizes.index(min(sizes))
        if sizes[a] - sizes[b] < 2:
            break
        for part in parts(meetings, rounds, a, b):
            looks += len(part)
            of_part = [rounds[i] for i in part]
            if of_part.count(a) == of_part.count(b) + 1:
                break
        for i in part:
            rounds[i] = a + b - rounds[i]
    return looks


class Day:
    """All meetings that ever had a number, those that were dropped, and the round of each."""

    def __init__(self, data):
        self.groups, self.stations, self.rooms, self.meetings = list_of(data)
        self.dropped = set()
        self.rounds = [None] * len(self.meetings)
        self.looks = self.make()

    def there(self):
        return [i for i in range(len(self.meetings)) if i not in self.dropped]

    def make(self):
        """Puts in what has no round, evens out, and answers the looks."""
        self.many = fewest(self.groups, self.stations, self.rooms, [self.meetings[i] for i in self.there()])
        self.rounds = [round if round is not None and round < self.many else None for round in self.rounds]
        waiting = [i for i in self.there() if self.rounds[i] is None]
        looks = sum(put_in(self.meetings, self.rounds, self.many, i) for i in waiting)
        return looks + even_out(self.meetings, self.rounds, self.many)

    def note(self, kind, named, place):
        """Notes one change, or refuses it by its place in the row."""
        if kind == 0 and len(self.meetings) < 4000:
            self.meetings.append(named)
            self.rounds.append(None)
        elif kind == 1 and named[0] + 256 * named[1] in self.there():
            self.dropped.add(named[0] + 256 * named[1])
            self.rounds[named[0] + 256 * named[1]] = None
        elif kind == 2 and self.rooms > 1:
            self.rooms -= 1
        elif kind == 3 and self.rooms < 120:
            self.rooms += 1
        else:
            raise Refused(6, place)

    def change(self, kind, named, place):
        """Makes one change. Answers the looks, and how many had a round before it and have another now."""
        before = list(self.rounds)
        self.note(kind, named, place)
        looks = self.make()
        return looks, sum(1 for x, y in zip(before, self.rounds) if None not in (x, y) and x != y)

    def plan_lines(self):
        for c in range(self.many):
            yield f"round {c} meetings {self.rounds.count(c)}"
        for i, round in enumerate(self.rounds):
            yield f"meeting {i} dropped" if round is None else f"meeting {i} round {round}"

    def report_lines(self):
        yield f"rounds {self.many} looks {self.looks}"
        yield from self.plan_lines()

    def sheet_lines(self):
        return sheet_lines(self.groups, self.stations, self.meetings, self.rounds, self.many)

    def plan_bytes(self):
        numbers = [self.many] + [NONE if round is None else round for round in self.rounds]
        return b"".join(number.to_bytes(2, "little") for number in numbers)

    def list_bytes(self):
        head = bytes([self.groups, self.stations, self.rooms]) + len(self.meetings).to_bytes(2, "little")
        return head + bytes(party for meeting in self.meetings for party in meeting)


def sheet_lines(groups, stations, meetings, rounds, many):
    for side, one, other in ((0, "group", "station"), (1, "station", "group")):
        for party in range((groups, stations)[side]):
            yield f"{one} {party}"
            yield f"round  {other:>7}"
            for c in range(many):
                i = meeting_of(meetings, rounds, side, party, c)
                yield f"{c:>5}  {'free' if i is None else meetings[i][1 - side]:>7}"
            yield ""


def change_lines(day, row, looks_too=False):
    """Makes the changes that the bytes say, and answers a line for each, once all are made."""
    lines = []
    for place, (kind, named) in enumerate(changes_of(row, day.groups, day.stations)):
        looks, moved = day.change(kind, named, place)
        lines.append(f"rounds {day.many} moved {moved}" + (f" looks {looks}" if looks_too else ""))
    return lines


def read(path):
    with open(path, "rb") as file:
        return file.read()


def lines_of(options, paths):
    looks_too = "--looks" in options
    day = Day(read(paths[0]))
    if "--sheets" in options:
        return list(day.sheet_lines())
    if not paths[1:]:
        return list(day.report_lines())
    lines = change_lines(day, read(paths[1]), looks_too)
    return lines + list(day.plan_lines()) if looks_too else lines


def main():
    options = [arg for arg in sys.argv[1:] if arg.startswith("--")]
    paths = [arg for arg in sys.argv[1:] if not arg.startswith("--")]
    try:
        for line in lines_of(options, paths):
            print(line)
    except Refused as refused:
        print(refused)
        sys.exit(1)


if __name__ == "__main__":
    main()
