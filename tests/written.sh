# What plan and day write, and where. Read by programs.sh.

# What plan and day write is accepted: for the list of the day, and for the one that day writes, which can be had as sheets, too.
# written LIST ROW LAST: of this list and row a plan is written, and the list LAST, for which it is accepted.
written() {
    row "$2"
    bytes "$1"
    expect 0 '*' '' $day "$work/day" "$work/row" "$work/plan" "$work/list"
    bytes "$3"
    same "$work/list" "$work/day"
    expect 0 accepted '' $checker "$work/list" "$work/plan"
    expect 0 'group 0*' '' $sheet "$work/list" "$work/plan"
}
list='\x03\x03\x03\x04\x00\x00\x00\x01\x00\x02\x02\x01\x02'
bytes "$list"
expect 0 '*' '' $plan "$work/day" "$work/plan"
expect 0 accepted '' $checker "$work/day" "$work/plan"
written "$list" '' "$list"
written "$list" '\x01\x02\x00' "$list"
written "$list" '\x02\x02\x01\x00\x00\x01\x03\x00\x03\x03' "$list"
written "$list" '\x01\x00\x00\x01\x01\x00\x01\x02\x00\x01\x03\x00' "$list"
# Two rooms in the end, and meeting 4 of group 2 with station 1.
written "$list" '\x02\x01\x01\x00\x00\x02\x01' '\x03\x03\x02\x05\x00\x00\x00\x01\x00\x02\x02\x01\x02\x02\x01'
# All meetings that there may be, in as many rounds, the last of which is added.
most() { printf '\x78\x78\x01%b' "$1" && head -c "$2" /dev/zero; }
most '\x9f\x0f' 7998 >"$work/day"
row '\x00\x00\x00'
expect 0 'rounds 4000 moved 0' '' $day "$work/day" "$work/row" "$work/plan" "$work/list"
most '\xa0\x0f' 8000 >"$work/day"
same "$work/list" "$work/day"
expect 0 accepted '' $checker "$work/day" "$work/plan"
# Meetings 0 to 2 are dropped, and a room is given up and got.
row '\x01\x00\x00\x02\x01\x01\x00\x03\x01\x02\x00'
expect 0 'rounds *' '' $day examples/school.day "$work/row" "$work/plan"
expect 0 accepted '' $checker examples/school.day "$work/plan"

# Both programs write a plan in the same way. An existing file becomes the whole plan, or stays as it was.
good='\x02\x02\x02\x04\x00\x00\x00\x00\x01\x01\x00\x01\x01'
printf '\x02\x00\x00\x00\x01\x00\x01\x00\x00\x00' >"$work/want"
# A room more changes nothing here, and it is told of.
row '\x03'
# What root may write to anyway it may not without this right.
if [ "$(id -u)" = 0 ]; then bound='setpriv --bounding-set=-dac_override'; else bound=; fi
mkdir "$work/locked" "$work/folder"
old "$work/locked/plan"
chmod a-w "$work/locked"
long=$work/$(printf '%0255d' 0)
old "$long"
for write in "$plan $work/day" "$day $work/day $work/row"; do
    name=$(basename "${write%% *}")
    cannot="$name: cannot write"

    bytes "$good"
    expect 0 '*' '' $write "$work/$name.plan"
    same "$work/$name.plan" "$work/want"
    # One that exists is replaced, and no others may read it than before.
    old "$work/$name.old"
    chmod 600 "$work/$name.old"
    expect 0 '*' '' $write "$work/$name.old"
    same "$work/$name.old" "$work/want"
    expect 0 600 '' stat -c %a "$work/$name.old"
    # Of a link, what it names.
    ln -s "$name.named" "$work/$name.link"
    old "$work/$name.named"
    expect 0 '*' '' $write "$work/$name.link"
    same "$work/$name.named" "$work/want"
    expect 0 "$name.named" '' readlink "$work/$name.link"
    # A device and a pipe are written into.
    expect 0 '*' '' $write /dev/null
    expect 0 'character special file' '' stat -c %F /dev/null
    mkfifo "$work/$name.pipe"
    timeout 20 cat "$work/$name.pipe" >"$work/$name.read" &
    expect 0 '*' '' $write "$work/$name.pipe"
    wait
    same "$work/$name.read" "$work/want"
    expect 0 fifo '' stat -c %F "$work/$name.pipe"
    # It is written before anything is printed.
    expect 1 '' "$name: No space left on device*" bash -c "$write $work/$name.first >/dev/full"
    same "$work/$name.first" "$work/want"

    expect 1 '' "$name: the plan needs a file of its own*$name --help*" $write -
    # Nor is what was read replaced by the plan.
    expect 1 '' "$name: the plan needs a file of its own*$name --help*" $write "$work/day"
    expect 1 '' "$cannot $work/no-such/plan: No such file*" $write "$work/no-such/plan"
    expect 1 '' "$cannot $work/folder: Is a directory*" $write "$work/folder"
    expect 1 '' "$cannot $work/folder/: Is a directory*" $write "$work/folder/"
    expect 1 '' "$cannot $work/day/plan: Not a directory*" $write "$work/day/plan"
    expect 1 '' "$cannot : No such file*" $write ''
    expect 1 '' "$cannot /dev/full: No space left on device*" $write /dev/full
    expect 1 '' "$cannot $work/locked/new: Permission denied*" $bound $write "$work/locked/new"
    expect 1 '' "$cannot $work/locked/plan: Permission denied*" $bound $write "$work/locked/plan"
    still "$work/locked/plan"
    # A file that may not be written is not replaced.
    old "$work/$name.fixed"
    chmod a-w "$work/$name.fixed"
    expect 1 '' "$cannot $work/$name.fixed: Permission denied*" $bound $write "$work/$name.fixed"
    still "$work/$name.fixed"
    # There is no room for another name beside this one.
    expect 1 '' "$cannot $long: File name too long*" $write "$long"
    still "$long"
    # The first half of the plan can be written, and the rest not.
    most '\xa0\x0f' 8000 >"$work/day"
    old "$work/$name.half"
    expect 1 '' "$cannot $work/$name.half: File too large*" bash -c "trap '' XFSZ; ulimit -f 4; $write $work/$name.half"
    still "$work/$name.half"
    # A list that is refused has no plan.
    bytes '\x01\x01\x01\x00'
    old "$work/$name.kept"
    expect 1 'refused 1 at 4' '' $write "$work/$name.kept"
    still "$work/$name.kept"
    expect 1 'refused 1 at 4' '' $write "$work/$name.none"
    expect 1 '' '' test -e "$work/$name.none"
done
# Neither has a row that is refused.
bytes "$good"
row '\x03\x04'
expect 1 'refused 6 at 1' '' $day "$work/day" "$work/row" "$work/day.kept"
still "$work/day.kept"
# No part of a plan is left over.
expect 0 '' '' find "$work" -name '*.part'
