# What day prints, and what it refuses. Read by programs.sh.

# changes ROW STATUS STDOUT: what this row comes to on the day that was written last.
changes() {
    row "$1"
    expect "$2" "$3" '' $day "$work/day" "$work/row"
}
school=$(cat crates/day/stdout)
expect 0 "$school" '' $day examples/school.day examples/school.changes
expect 0 "$school" '' $day - examples/school.changes <examples/school.day
expect 0 "$school" '' $day examples/school.day - <examples/school.changes
expect 0 'usage: day DAY CHANGES *PLAN*' '' $day --help
expect 1 '' 'day: two to four files are needed*day --help*' $day
expect 1 '' 'day: two to four files are needed*day --help*' $day examples/school.day
expect 1 '' 'day: two to four files are needed*day --help*' $day examples/school.day examples/school.changes "$work/plan" "$work/list" "$work/plan"
for list in - "$work/plan" examples/school.day examples/school.changes; do
    expect 1 '' 'day: the plan needs a file of its own*and so does its list*day --help*' $day examples/school.day examples/school.changes "$work/plan" "$list"
done
expect 1 '' 'day: only one of the two files can be standard input*day --help*' $day - - <examples/school.day
expect 1 '' "day: cannot read no-such.day: No such file*. Name the file with the day's meetings." $day no-such.day examples/school.changes
expect 1 '' 'day: cannot read no-such.changes: No such file*. Name the file with the row of changes.' $day examples/school.day no-such.changes
expect 1 '' 'day: cannot read examples: *' $day examples/school.day examples
expect 1 '' 'day: No space left on device*' bash -c "$day examples/school.day examples/school.changes >/dev/full"

# Two groups, two stations, two rooms, no meeting yet. Three meetings are added: group 0 with station 0, group 0 with station 1 in a
# round of its own, and group 1 with station 1 beside the first. The first is dropped, and then group 0 has one still, and so has
# group 1, both with station 1; when one of these is dropped too, the other is in round 0 already.
bytes '\x02\x02\x02\x00\x00'
changes '\x00\x00\x00\x00\x00\x01\x00\x01\x01\x01\x00\x00\x01\x01\x00' 0 'rounds 1 moved 0
rounds 2 moved 0
rounds 2 moved 0
rounds 2 moved 0
rounds 1 moved 0'
changes '' 0 ''
# Two meetings in one round. With one room the first goes to round 1; with two again round 1 is no more, and it goes back; a third
# room changes nothing.
bytes '\x02\x02\x02\x02\x00\x00\x00\x01\x01'
changes '\x02\x03\x03' 0 'rounds 2 moved 1
rounds 1 moved 1
rounds 1 moved 0'
# Meetings 0 and 2 are in round 0, meeting 1 in round 1. Meeting 3 finds no common free round: meeting 2 makes place for it.
bytes '\x03\x03\x03\x03\x00\x00\x00\x01\x00\x02\x02'
changes '\x00\x01\x02' 0 'rounds 2 moved 1'

# A row ends within a change.
bytes '\x02\x02\x02\x02\x00\x00\x00\x01\x01'
changes '\x00' 1 'refused 1 at 1'
changes '\x00\x01' 1 'refused 1 at 2'
changes '\x02\x01\x00' 1 'refused 1 at 3'
# No such group, no such station.
changes '\x00\x02\x00' 1 'refused 4 at 1'
changes '\x03\x00\x01\x02' 1 'refused 4 at 3'
# No such kind; no such meeting, also by its high byte; one that was dropped; no room left to give up. What was made before is not
# told, and what comes after is not looked at.
changes '\x03\x04' 1 'refused 6 at 1'
changes '\x01\x02\x00' 1 'refused 6 at 0'
changes '\x03\x03\x01\x00\x01' 1 'refused 6 at 2'
changes '\x01\x01\x00\x01\x01\x00\x00\x02\x00' 1 'refused 6 at 1'
changes '\x02\x02' 1 'refused 6 at 1'
# 119 rooms: one more, and no other.
bytes '\x01\x01\x77\x00\x00'
changes '\x03' 0 'rounds 0 moved 0'
changes '\x03\x03' 1 'refused 6 at 1'
# 3,999 meetings of one pair, of 120 groups and 120 stations: one more, in as many rounds as there ever are; and then no other,
# although the first was dropped.
{ printf '\x78\x78\x01\x9f\x0f' && head -c 7998 /dev/zero; } >"$work/day"
changes '\x00\x00\x00' 0 'rounds 4000 moved 0'
changes '\x00\x00\x00\x01\x00\x00\x00\x01\x01' 1 'refused 6 at 2'
# A list is refused before its row.
bytes '\x01\x01\x01\x00'
changes '\x04' 1 'refused 1 at 4'
bytes '\x03\x03\x01\x03\x00\x00\x00\x01\x01\x03\x02'
changes '\x04' 1 'refused 4 at 9'
