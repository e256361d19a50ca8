# What plan prints, and what it refuses. Read by programs.sh.

school=$(cat crates/plan/stdout)
expect 0 "$school" '' $plan examples/school.day
expect 0 "$school" '' $plan - <examples/school.day
expect 0 "$school" '' $plan examples/school.day "$work/plan"
same "$work/plan" examples/school.plan
expect 0 'usage: plan DAY *PLAN*' '' $plan --help
expect 1 '' 'plan: one or two files are needed*plan --help*' $plan
expect 1 '' 'plan: one or two files are needed*plan --help*' $plan examples/school.day "$work/plan" "$work/plan"
expect 1 '' 'plan: cannot read no-such.day: No such file*' $plan no-such.day
expect 1 '' 'plan: cannot read examples: *' $plan examples
expect 1 '' 'plan: No space left on device*' bash -c "$plan examples/school.day >/dev/full"

bytes '\x01\x01\x01\x00'
expect 1 'refused 1 at 4' '' $plan "$work/day"
bytes '\x01\x01\x79\x00\x00'
expect 1 'refused 2 at 2' '' $plan "$work/day"
bytes '\x01\x01\x01\xa1\x0f'
expect 1 'refused 3 at 3' '' $plan "$work/day"
bytes '\x03\x03\x01\x03\x00\x00\x00\x01\x01\x03\x02'
expect 1 'refused 4 at 9' '' $plan "$work/day"
bytes '\x03\x03\x01\x03\x00\x00\x00\x01\x01\x02\x02'
# One room: meeting 0 goes from round 0 to round 1, then meeting 1 to round 2, with a look at each.
expect 0 'rounds 3 looks 5
round 0 meetings 1
round 1 meetings 1
round 2 meetings 1
meeting 0 round 1
meeting 1 round 2
meeting 2 round 0' '' $plan "$work/day"
bytes '\x01\x02\x09\x03\x00\x00\x00\x00\x00\x00\x01'
expect 0 'rounds 3 looks 3
round 0 meetings 1
round 1 meetings 1
round 2 meetings 1
meeting 0 round 0
meeting 1 round 1
meeting 2 round 2' '' $plan "$work/day"
bytes '\x01\x01\x04\x00\x00'
expect 0 'rounds 0 looks 0' '' $plan "$work/day"
# Meeting 3 finds no common free round: its group is free in 0, its station in 1. The chain is meeting 2.
bytes '\x03\x03\x03\x04\x00\x00\x00\x01\x00\x02\x02\x01\x02'
expect 0 'rounds 2 looks 5
round 0 meetings 2
round 1 meetings 2
meeting 0 round 0
meeting 1 round 1
meeting 2 round 1
meeting 3 round 0' '' $plan "$work/day"
