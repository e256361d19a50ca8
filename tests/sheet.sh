# What sheet prints. Read by programs.sh.

school=$(cat crates/sheet/stdout)
expect 0 "$school" '' $sheet examples/school.day examples/school.plan
expect 0 "$school" '' $sheet - examples/school.plan <examples/school.day
expect 0 "$school" '' $sheet examples/school.day - <examples/school.plan
expect 0 'usage: sheet DAY PLAN*' '' $sheet --help
expect 1 '' 'sheet: two files are needed*sheet --help*' $sheet examples/school.day
expect 1 '' 'sheet: only one of the two files can be standard input*sheet --help*' $sheet - - <examples/school.day
expect 1 '' 'sheet: cannot read no-such.plan: No such file*. Name the file with the plan.' $sheet examples/school.day no-such.plan
expect 1 '' 'sheet: No space left on device*' bash -c "$sheet examples/school.day examples/school.plan >/dev/full"
# Group 0 meets stations 0 and 1, and group 1 station 1; the second meeting is dropped.
bytes '\x02\x02\x02\x03\x00\x00\x00\x00\x01\x01\x01'
printf '\x01\x00\x00\x00\xff\xff\x00\x00' >"$work/plan"
expect 0 'group 0
round  station
    0        0

group 1
round  station
    0        1

station 0
round    group
    0        0

station 1
round    group
    0        1' '' $sheet "$work/day" "$work/plan"
# A plan with a round too many, and a list that breaks a rule before it.
printf '\x02\x00\x00\x00\xff\xff\x00\x00' >"$work/plan"
expect 1 'refused 10 at 2' '' $sheet "$work/day" "$work/plan"
bytes '\x02\x02\x00\x00\x00'
expect 1 'refused 2 at 2' '' $sheet "$work/day" "$work/plan"
