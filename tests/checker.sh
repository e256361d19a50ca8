# What checker prints. Read by programs.sh.

# The checker: refusals have the number and the place that FORMATS.md gives them.
# judged PLAN STATUS STDOUT: what is said of this plan for the day that was written last.
judged() {
    printf "$1" >"$work/plan"
    expect "$2" "$3" '' $checker "$work/day" "$work/plan"
}
expect 0 accepted '' $checker examples/school.day examples/school.plan
expect 0 accepted '' $checker - examples/school.plan <examples/school.day
expect 0 accepted '' $checker examples/school.day - <examples/school.plan
expect 0 'usage: checker DAY PLAN*' '' $checker --help
expect 1 '' 'checker: two files are needed*checker --help*' $checker
expect 1 '' 'checker: two files are needed*checker --help*' $checker examples/school.day
expect 1 '' 'checker: two files are needed*checker --help*' $checker examples/school.day examples/school.plan examples/school.plan
expect 1 '' 'checker: only one of the two files can be standard input*checker --help*' $checker - - <examples/school.day
expect 1 '' "checker: cannot read no-such.day: No such file*. Name the file with the day's meetings." $checker no-such.day examples/school.plan
expect 1 '' 'checker: cannot read no-such.plan: No such file*. Name the file with the plan.' $checker examples/school.day no-such.plan
expect 1 '' 'checker: No space left on device*' bash -c "$checker examples/school.day examples/school.plan >/dev/full"

# Two groups, two stations, two rooms: meetings of group 0 with stations 0 and 1, and then of group 1 with both.
bytes '\x02\x02\x02\x04\x00\x00\x00\x00\x01\x01\x00\x01\x01'
judged '\x02\x00\x00\x00\x01\x00\x01\x00\x00\x00' 0 accepted
# Meetings 0 and 3 are dropped, and one round is enough for the others; all are, and none is needed.
judged '\x01\x00\xff\xff\x00\x00\x00\x00\xff\xff' 0 accepted
judged '\x00\x00\xff\xff\xff\xff\xff\xff\xff\xff' 0 accepted
# No bytes, one too few, one too many.
judged '' 1 'refused 1 at 0'
judged '\x02\x00\x00\x00\x01\x00\x01\x00\x00' 1 'refused 1 at 9'
judged '\x02\x00\x00\x00\x01\x00\x01\x00\x00\x00\x00' 1 'refused 1 at 10'
# Meeting 2 has round 2 of two, then round 256; meeting 0 has round 0 of none.
judged '\x02\x00\x00\x00\x01\x00\x02\x00\x00\x00' 1 'refused 7 at 2'
judged '\x02\x00\x00\x00\x01\x00\x00\x01\x00\x00' 1 'refused 7 at 2'
judged '\x00\x00\x00\x00\x00\x00\x00\x00\x00\x00' 1 'refused 7 at 0'
# Meeting 1 is in the round of meeting 0, as group 0 is; meeting 2 is in it, as station 0 is.
judged '\x02\x00\x00\x00\x00\x00\x01\x00\x01\x00' 1 'refused 8 at 1'
judged '\x02\x00\x00\x00\x01\x00\x00\x00\x01\x00' 1 'refused 8 at 8194'
# A round more than is needed, of which one is empty; and where two meetings are dropped; and the most that can be said.
judged '\x03\x00\x00\x00\x01\x00\x01\x00\x00\x00' 1 'refused 10 at 3'
judged '\x02\x00\xff\xff\x00\x00\x01\x00\xff\xff' 1 'refused 10 at 2'
judged '\xff\xff\x00\x00\x01\x00\x01\x00\x00\x00' 1 'refused 10 at 65535'
# With one room the rounds 0 and 1 have a meeting too many; of three rounds, round 1 alone.
bytes '\x02\x02\x01\x04\x00\x00\x00\x00\x01\x01\x00\x01\x01'
judged '\x02\x00\x00\x00\x01\x00\x01\x00\x00\x00' 1 'refused 9 at 0'
judged '\x03\x00\x00\x00\x01\x00\x01\x00\x02\x00' 1 'refused 9 at 1'
judged '\x04\x00\x00\x00\x01\x00\x02\x00\x03\x00' 0 accepted
# A list is refused before its plan.
bytes '\x02\x02\x01\x04\x00\x00\x00\x00\x01\x01\x00\x01\x02'
judged '' 1 'refused 4 at 12'
