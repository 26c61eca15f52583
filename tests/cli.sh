#!/bin/sh
# Checks of the built program over real files: cli.sh PROGRAM
# Each runs in a folder of its own. The last line is 'N passed, N failed'.
set -u
program=$(cd "$(dirname "$1")" && pwd)/$(basename "$1")
examples=$(cd "$(dirname "$0")/../examples" && pwd) || exit 1
top=$(mktemp -d) || exit 1
trap 'rm -rf "$top"' EXIT
passed=0
failed=0
skipped=0

# A folder of its own for the check of this name.
begin() {
    name=$1
    rm -rf "$top/work" && mkdir "$top/work" && cd "$top/work" || exit 1
    fault=''
}

# Runs the program with these words, its output into files beside the folder.
run() {
    "$program" "$@" >"$top/out" 2>"$top/err"
    status=$?
}

# Notes what differs: WHAT WANTED FOUND
same() {
    [ "$2" = "$3" ] || fault="$fault; $1: wanted <$2>, found <$3>"
}

# The status, the line on standard error, standard output, and the files of the folder by name.
ended() {
    same status "$1" "$status"
    same 'standard error' "$2" "$(cat "$top/err")"
    same 'standard output' "$3" "$(cat "$top/out" 2>/dev/null)"
    same files "$4" "$(ls -A | tr '\n' ' ')"
}

# The text of a file, with tabs shown as >.
holds() {
    same "$1" "$2" "$(tr '\t\n' '> ' <"$1")"
}

end() {
    if [ -z "$fault" ]; then
        passed=$((passed + 1))
    else
        failed=$((failed + 1))
        echo "FAILED $name$fault"
    fi
}

skip() {
    skipped=$((skipped + 1))
    echo "skipped: $1"
}

counts='a b\nb c\na a\n'

begin 'words are counted'
printf "$counts" >in.txt
run block wc in.txt
ended 0 '' 'done records=3 parts=1' 'in.txt part-0 '
holds part-0 'a>3 b>2 c>1 '
end

begin 'two reducers make two parts'
printf "$counts" >in.txt
run block wc in.txt --reducers 2
ended 0 '' 'done records=3 parts=2' 'in.txt part-0 part-1 '
holds part-0 'b>2 '
holds part-1 'a>3 c>1 '
end

begin 'a part that was there is replaced, and other files stay'
printf "$counts" >in.txt
echo old >part-0
echo mine >other
run block wc in.txt
ended 0 '' 'done records=3 parts=1' 'in.txt other part-0 '
holds part-0 'a>3 b>2 c>1 '
holds other 'mine '
end

begin 'a link where the file beside goes is not followed'
printf "$counts" >in.txt
echo mine >other
ln -s other .hop-part-0
run block wc in.txt
ended 0 '' 'done records=3 parts=1' 'in.txt other part-0 '
holds part-0 'a>3 b>2 c>1 '
holds other 'mine '
end

begin 'sums stop at the greatest number'
printf 'k\t18446744073709551615\nk\t1\nk\t18446744073709551616\nk\t\nk\n' >in
run block sum in
ended 0 '' 'done records=5 parts=1' 'in part-0 '
holds part-0 'k>18446744073709551615 '
end

begin 'the best come first'
printf 'b\t3\na\t3\nc\t5\nb\t3\n' >in
run block top in --k 2
ended 0 '' 'done records=4 parts=1' 'in part-0 '
holds part-0 'c>5 a>3 '
end

begin 'the greatest of each key'
printf 'b\t3\na\t3\nc\t5\nb\t3\n' >in
run block max in
ended 0 '' 'done records=4 parts=1' 'in part-0 '
holds part-0 'a>3 b>3 c>5 '
end

usage='hop: the words are not understood'
for words in '' 'run wc in --k 0' 'run wc' 'block wc in --marks 5' 'run wc in --marks 5,5' 'block wc in --k' \
    'block wc in --k 3 --k 3' 'block wc in --k=0' 'block wc in --k 1001' 'block wc in --k -3' 'block wc in --reducers 9' \
    'block wc in --other 1' 'block wc in -k 3' 'block wc ../in' 'block wc .in' 'block wc' 'block wc in in' 'block sort in' \
    'block wc in --k 000000000000000000003' '--help' 'block wc -' 'run wc in --marks 0' 'run wc in --marks 10001' 'run wc in --marks 5,4' \
    'run wc in --marks 5,' 'run wc in --marks 1,2,3,4,5,6,7,8,9,10,11,12,13,14,15,16,17' 'run wc in --marks 5 --marks 6' 'run wc in --tentative maybe'; do
    begin "not understood: $words"
    printf "$counts" >in
    # shellcheck disable=SC2086
    run $words
    ended 1 "$usage" '' 'in '
    end
done

begin 'a word that is no text is not understood'
printf "$counts" >in
run block wc "$(printf '\377')"
ended 1 "$usage" '' 'in '
end

begin 'options stand anywhere and in either spelling'
printf "$counts" >in
run --reducers=2 block --k 00000000000000000003 wc -- in
ended 0 '' 'done records=3 parts=2' 'in part-0 part-1 '
end

begin 'a missing input'
run block wc none
ended 2 'hop: cannot read the input' '' ''
end

begin 'a directory in place of the input'
mkdir in
run block wc in
ended 2 'hop: cannot read the input' '' 'in '
end

# So many bytes `x`.
exes() {
    head -c "$1" /dev/zero | tr '\0' 'x'
}

# 262,144 lines of 63 `x`, which are 16,777,216 bytes.
greatest() {
    exes 16515072 | fold -w 63
    echo
}

begin 'an input of the greatest length'
greatest >in
same length 16777216 "$(wc -c <in | tr -d ' ')"
run block wc in
ended 0 '' 'done records=262144 parts=1' 'in part-0 '
holds part-0 "$(exes 63)>262144 "
end

begin 'one byte too many'
{ greatest; exes 1; } >in
same length 16777217 "$(wc -c <in | tr -d ' ')"
run block wc in
ended 3 'hop: the input is too long' '' 'in '
end

begin 'a record of the greatest length'
exes 65535 >in
run block wc in
ended 0 '' 'done records=1 parts=1' 'in part-0 '
holds part-0 "$(exes 65535)>1 "
end

begin 'a record that is too long'
exes 65536 >in
run block wc in
ended 3 'hop: record 0 is too long' '' 'in '
end

begin 'the second record is too long'
{ echo short; exes 65536; } >in
run block wc in
ended 3 'hop: record 1 is too long' '' 'in '
end

begin 'a directory where a part goes'
printf "$counts" >in
mkdir part-1
run block wc in --reducers 2
ended 6 'hop: the job folder failed' '' 'in part-0 part-1 '
holds part-0 'b>2 '
end

# ---- runs

four='a\nb\na\nc\n'

# The trace, by its lines behind the head: SPLITS REDUCERS LINES
traces() {
    holds trace "hop-trace 1 job wc splits $1 reducers $2 $3 end "
}

# A replay of the turn list, over splits of two records and spills of one.
replayed() {
    printf "$1" >turns
    shift
    run replay wc in --split 2 --spill 1 --workers 1 --turns turns "$@"
}

begin 'a run'
printf "$counts" >in.txt
run run wc in.txt
ended 0 '' 'done records=3 splits=1 parts=1 snapshots=0 attempts=1 pulled=0 settled=1' 'in.txt part-0 spill-0 trace '
holds part-0 'a>3 b>2 c>1 '
traces 1 1 'begun 0 1 reducer 0 arrive 0 0 0 3 s0 won 0 0 finish'
same spills 's-0-0-0 ' "$(ls -A spill-0 | tr '\n' ' ')"
end

begin 'a run over two reducers and two workers'
printf 'a b\na a\nb c\nc c\n' >in
run run wc in --reducers 2 --split 2 --spill 1
ended 0 '' 'done records=4 splits=2 parts=2 snapshots=0 attempts=2 pulled=0 settled=8' 'in part-0 part-1 spill-0 spill-1 trace '
holds part-0 'b>2 '
holds part-1 'a>3 c>3 '
end

begin 'a run of no records'
: >in
run run wc in
ended 0 '' 'done records=0 splits=0 parts=1 snapshots=0 attempts=0 pulled=0 settled=0' 'in part-0 trace '
holds part-0 ''
traces 0 1 'reducer 0 finish'
end

begin 'turns are taken as the list has them'
printf "$four" >in
replayed 'm0 3\nr0 2\n'
ended 0 '' 'done records=4 splits=2 parts=1 snapshots=0 attempts=2 pulled=0 settled=2' 'in part-0 spill-0 trace turns '
holds part-0 'a>2 b>1 c>1 '
traces 2 1 'begun 0 1 begun 1 1 reducer 0 arrive 0 0 0 1 w0 arrive 0 0 1 2 w0 won 0 0 arrive 1 0 0 1 s0 arrive 1 0 1 2 s0 won 1 0 finish'
same spills 's-0-0-0 s-0-0-1 s-1-0-0 s-1-0-1 ' "$(ls -A spill-0 | tr '\n' ' ')"
end

begin 'an attempt fails and is tried again'
printf "$four" >in
echo 'fail 0 0 1' >script
replayed 'm0 2\nr0\nm0\nr0\nm0 3\nr0 2\nm0\nr0\nm0 3\nr0 2\nm0\nr0\n' --script script
ended 0 '' 'done records=4 splits=2 parts=1 snapshots=0 attempts=3 pulled=0 settled=0' 'in part-0 script spill-0 trace turns '
holds part-0 'a>2 b>1 c>1 '
traces 2 1 'begun 0 2 begun 1 1 reducer 0 arrive 0 0 0 1 w0 revoked 0 0 arrive 0 1 0 1 w0 arrive 0 1 1 2 w0 won 0 1 arrive 1 0 0 1 w0 arrive 1 0 1 2 w0 won 1 0 finish'
same spills 's-0-0-0 s-0-1-0 s-0-1-1 s-1-0-0 s-1-0-1 ' "$(ls -A spill-0 | tr '\n' ' ')"
end

begin 'a split has spent its attempts'
printf "$four" >in
echo 'fail 0 0 0' >script
replayed '' --script script --attempts 1
ended 5 'hop: split 0 has spent its attempts' '' 'in script turns '
replayed '' --script script --attempts 2
ended 0 '' 'done records=4 splits=2 parts=1 snapshots=0 attempts=3 pulled=0 settled=4' 'in part-0 script spill-0 trace turns '
end

begin 'an attempt fails at the end of its split'
printf 'a\nb\n' >in
echo 'fail 0 0 2' >script
replayed '' --script script
ended 0 '' 'done records=2 splits=1 parts=1 snapshots=0 attempts=2 pulled=0 settled=4' 'in part-0 script spill-0 trace turns '
traces 1 1 'begun 0 2 reducer 0 arrive 0 0 0 1 s0 arrive 0 0 1 2 s0 revoked 0 0 arrive 0 1 0 1 s0 arrive 0 1 1 2 s0 won 0 1 finish'
end

begin 'ranges are joined behind a full lane'
printf "$four" >in
printf 'm0 6\n' >turns
run replay wc in --split 4 --spill 1 --workers 1 --lane 1 --turns turns
ended 0 '' 'done records=4 splits=1 parts=1 snapshots=0 attempts=1 pulled=0 settled=3' 'in part-0 spill-0 trace turns '
holds part-0 'a>2 b>1 c>1 '
traces 1 1 'begun 0 1 reducer 0 arrive 0 0 0 1 s0 arrive 0 0 1 2 s0 arrive 0 0 2 4 s0 won 0 0 finish'
end

begin 'a reducer restarts and pulls what it lacks'
printf 'a\nb\nc\n' >in
echo 'restart 0 2' >script
printf 'm0 3\nr0 2\nm0\nr0 2\n' >turns
run replay wc in --split 3 --spill 1 --workers 1 --script script --turns turns
ended 0 '' 'done records=3 splits=1 parts=1 snapshots=0 attempts=1 pulled=1 settled=0' 'in part-0 script spill-0 trace turns '
holds part-0 'a>1 b>1 c>1 '
traces 1 1 'begun 0 1 reducer 0 arrive 0 0 0 1 w0 arrive 0 0 1 2 w0 restart ignore 0 0 2 3 w0 0 won 0 0 arrive 0 0 0 3 pull finish'
end

begin 'catching up in a turn list'
printf 'a\nb\nc\n' >in
echo 'restart 0 2' >script
printf 'm0 3\nr0 3\nc\nm0 2\nr0 2\n' >turns
run replay wc in --split 3 --spill 1 --workers 1 --script script --turns turns
ended 0 '' 'done records=3 splits=1 parts=1 snapshots=0 attempts=1 pulled=1 settled=0' 'in part-0 script spill-0 trace turns '
holds part-0 'a>1 b>1 c>1 '
traces 1 1 'begun 0 1 reducer 0 arrive 0 0 0 1 w0 arrive 0 0 1 2 w0 restart arrive 0 0 0 2 pull arrive 0 0 2 3 w0 won 0 0 finish'
end

begin 'a million turns of one worker'
printf "$four" >in
replayed 'm0 1000000\n'
ended 0 '' 'done records=4 splits=2 parts=1 snapshots=0 attempts=2 pulled=0 settled=3' 'in part-0 spill-0 trace turns '
holds part-0 'a>2 b>1 c>1 '
end

begin 'turns that nobody can use'
printf "$four" >in
replayed 's 5\nr0 5\nc\ns\n'
ended 0 '' 'done records=4 splits=2 parts=1 snapshots=0 attempts=2 pulled=0 settled=4' 'in part-0 spill-0 trace turns '
end

# Each attempt of each split but the last fails at its end, and the reducer restarts at the first arrivals. Its events grow with these, and not with their square.
begin 'failures and restarts cost what they are'
i=0
while [ $i -lt 20 ]; do echo "w$i"; i=$((i + 1)); done >in
before=''
for restarts in 0 3 6 9; do
    { for split in 0 1 2 3 4 5 6 7 8 9; do for attempt in 0 1 2; do echo "fail $split $attempt 9"; done; done
        i=1; while [ $i -le "$restarts" ]; do echo "restart 0 $i"; i=$((i + 1)); done; } >script
    run run wc in --split 2 --spill 1 --workers 1 --script script
    same status 0 "$status"
    events=$(grep -c -e '^arrive' -e '^ignore' -e '^won' -e '^revoked' -e '^restart' -e '^finish' trace)
    if [ -z "$before" ]; then
        # 10 splits of 4 attempts of 2 ranges, 3 of them revoked and 1 won, and a finish.
        same events 121 "$events"
    else
        # A restart is one event; what was lost is ignored or pulled again, and that is at most one split's.
        [ "$events" -gt "$before" ] && [ "$events" -le $((before + 15)) ] || fault="$fault; $restarts restarts: $before events and then $events"
    fi
    before=$events
done
end

# The same with a restart after each of the first arrivals, 8 for each split: what is done grows with the splits, and not with their square.
begin 'a restart after each arrival'
each=''
for splits in 2 4 8 16; do
    i=0
    while [ $i -lt $((2 * splits)) ]; do echo "w$i"; i=$((i + 1)); done >in
    { i=0; while [ $i -lt $splits ]; do printf "fail $i 0 9\nfail $i 1 9\nfail $i 2 9\n"; i=$((i + 1)); done
        i=1; while [ $i -le $((8 * splits)) ]; do echo "restart 0 $i"; i=$((i + 1)); done; } >script
    run run wc in --split 2 --spill 1 --workers 1 --script script
    same status 0 "$status"
    same restarts $((8 * splits)) "$(grep -c '^restart' trace)"
    # All but the finish, for each split.
    events=$(grep -c -e '^arrive' -e '^ignore' -e '^won' -e '^revoked' -e '^restart' trace)
    each="$each $((events / splits))"
done
set -- $each; same "events a split" "$1 $1 $1 $1" "$*"
end

# ---- snapshots

# The snapshot of a mark and a reducer, by its lines behind the job: MARK REDUCER LINES
snapped() {
    holds "snap-$1-$2" "hop-snapshot 1 job wc mark $1 $3 "
}

begin 'a snapshot of no records'
: >in
run run wc in --marks 5000
ended 0 '' 'done records=0 splits=0 parts=1 snapshots=1 attempts=0 pulled=0 settled=0' 'in part-0 snap-5000-0 trace '
holds part-0 ''
snapped 5000 0 'reducer 0 of 1 progress 10000 --'
traces 0 1 'reducer 0 finish'
end

begin 'a snapshot of half the input'
printf "$four" >in
replayed 'm0 3\nr0 2\n' --marks 5000
ended 0 '' 'done records=4 splits=2 parts=1 snapshots=1 attempts=2 pulled=0 settled=2' 'in part-0 snap-5000-0 spill-0 trace turns '
snapped 5000 0 'reducer 0 of 1 progress 5000 split 0 attempt 0 records 2 of 2 tentative split 1 none -- a>1 b>1'
holds part-0 'a>2 b>1 c>1 '
end

begin 'one arrival reaches several marks'
printf "$four" >in
replayed 'm0 3\nr0 2\n' --marks 1,2000,2500,2501,9999
ended 0 '' 'done records=4 splits=2 parts=1 snapshots=5 attempts=2 pulled=0 settled=2' \
    'in part-0 snap-1-0 snap-2000-0 snap-2500-0 snap-2501-0 snap-9999-0 spill-0 trace turns '
quarter='reducer 0 of 1 progress 2500 split 0 attempt 0 records 1 of 2 tentative split 1 none -- a>1'
snapped 1 0 "$quarter"
snapped 2000 0 "$quarter"
snapped 2500 0 "$quarter"
snapped 2501 0 'reducer 0 of 1 progress 5000 split 0 attempt 0 records 2 of 2 tentative split 1 none -- a>1 b>1'
snapped 9999 0 'reducer 0 of 1 progress 10000 split 0 attempt 0 records 2 of 2 committed split 1 attempt 0 records 2 of 2 tentative -- a>2 b>1 c>1'
end

retried='m0 2\nr0\nm0\nr0\nm0 3\nr0 2\nm0\nr0\nm0 3\nr0 2\nm0\nr0\n'
begin 'a snapshot of an attempt that fails later'
printf "$four" >in
echo 'fail 0 0 1' >script
replayed "$retried" --script script --marks 2500
ended 0 '' 'done records=4 splits=2 parts=1 snapshots=1 attempts=3 pulled=0 settled=0' 'in part-0 script snap-2500-0 spill-0 trace turns '
snapped 2500 0 'reducer 0 of 1 progress 2500 split 0 attempt 0 records 1 of 2 tentative split 1 none -- a>1'
holds part-0 'a>2 b>1 c>1 '
end

begin 'the same of committed data alone'
printf "$four" >in
echo 'fail 0 0 1' >script
replayed "$retried" --script script --marks 2500 --tentative no
ended 0 '' 'done records=4 splits=2 parts=1 snapshots=1 attempts=3 pulled=0 settled=0' 'in part-0 script snap-2500-0 spill-0 trace turns '
snapped 2500 0 'reducer 0 of 1 progress 5000 split 0 attempt 1 records 2 of 2 committed split 1 none -- a>1 b>1'
end

begin 'a restart falls below marks that were cut'
printf 'a\nb\nc\n' >in
echo 'restart 0 2' >script
printf 'm0 3\nr0 2\nm0\nr0 2\n' >turns
run replay wc in --split 3 --spill 1 --workers 1 --script script --turns turns --marks 3000,6000,9000
ended 0 '' 'done records=3 splits=1 parts=1 snapshots=3 attempts=1 pulled=1 settled=0' 'in part-0 script snap-3000-0 snap-6000-0 snap-9000-0 spill-0 trace turns '
snapped 3000 0 'reducer 0 of 1 progress 3333 split 0 attempt 0 records 1 of 3 tentative -- a>1'
snapped 6000 0 'reducer 0 of 1 progress 6666 split 0 attempt 0 records 2 of 3 tentative -- a>1 b>1'
snapped 9000 0 'reducer 0 of 1 progress 10000 split 0 attempt 0 records 3 of 3 committed -- a>1 b>1 c>1'
end

begin 'each reducer takes its own snapshots'
printf 'a b\na a\nb c\nc c\n' >in
run run wc in --reducers 2 --split 2 --workers 1 --marks 5000
ended 0 '' 'done records=4 splits=2 parts=2 snapshots=2 attempts=2 pulled=0 settled=4' 'in part-0 part-1 snap-5000-0 snap-5000-1 spill-0 trace '
snapped 5000 0 'reducer 0 of 2 progress 5000 split 0 attempt 0 records 2 of 2 tentative split 1 none -- b>1'
snapped 5000 1 'reducer 1 of 2 progress 5000 split 0 attempt 0 records 2 of 2 tentative split 1 none -- a>3'
end

begin 'a snapshot stays where a split is spent later'
printf "$four" >in
echo 'fail 1 0 0' >script
replayed 'm0 3\nr0 2\ns\n' --script script --attempts 1 --marks 5000,9000
ended 5 'hop: split 1 has spent its attempts' '' 'in script snap-5000-0 spill-0 turns '
snapped 5000 0 'reducer 0 of 1 progress 5000 split 0 attempt 0 records 2 of 2 tentative split 1 none -- a>1 b>1'
end

begin 'a directory where a snapshot goes'
printf "$four" >in
mkdir snap-5000-0
replayed 'm0 3\nr0 2\n' --marks 2500,5000
ended 6 'hop: the job folder failed' '' 'in snap-2500-0 snap-5000-0 spill-0 turns '
end

# Two workers draw a split each, and the reducer takes each message as it is sent: two ranges and a notice of each lane, in this order.
met() {
    turns='m0\nm1\n'
    events=''
    sent0=0
    sent1=0
    for w in $1; do
        turns="${turns}m$w\\nr0\\n"
        if [ "$w" = 0 ]; then sent=$sent0; sent0=$((sent0 + 1)); else sent=$sent1; sent1=$((sent1 + 1)); fi
        if [ "$sent" -lt 2 ]; then
            events="$events arrive $w 0 $sent $((sent + 1)) w$w"
        else
            events="$events won $w 0"
        fi
    done
    printf "$turns" >turns
    run replay wc in --split 2 --spill 1 --workers 2 --turns turns
    same "status of$1" 0 "$status"
    same "trace of$1" "hop-trace 1 job wc splits 2 reducers 1 begun 0 1 begun 1 1 reducer 0$events finish end " "$(tr '\n' ' ' <trace)"
    orders=$((orders + 1))
}

# Each order of so many messages of worker 0 and of worker 1 behind these: LIST ZEROS ONES
each_order() {
    if [ "$2" -eq 0 ] && [ "$3" -eq 0 ]; then met "$1"; fi
    if [ "$2" -gt 0 ]; then each_order "$1 0" $(($2 - 1)) "$3"; fi
    if [ "$3" -gt 0 ]; then each_order "$1 1" "$2" $(($3 - 1)); fi
}

begin 'the messages of two lanes in every order'
printf "$four" >in
orders=0
each_order '' 3 3
same orders 20 "$orders"
end

# ---- chains

# The snapshot of a later job, a mark and a reducer, by its lines behind the first: JOB MARK REDUCER LINES
chained() {
    holds "j$1-snap-$2-$3" "hop-chain-snapshot 1 stage $1 $4 "
}

begin 'the words of a text and the most frequent of them'
printf 'a b\na a\nb c\nc c\n' >in
run chain wc top in --k 2 --reducers 2 --split 2 --workers 1 --marks 5000
ended 0 '' 'done records=4 splits=2 parts=2 snapshots=2 attempts=2 pulled=0 settled=4 jobs=2' \
    'in j2-part-0 j2-part-1 j2-snap-5000-0 j2-snap-5000-1 part-0 part-1 snap-5000-0 snap-5000-1 spill-0 trace '
snapped 5000 0 'reducer 0 of 2 progress 5000 split 0 attempt 0 records 2 of 2 tentative split 1 none -- b>1'
snapped 5000 1 'reducer 1 of 2 progress 5000 split 0 attempt 0 records 2 of 2 tentative split 1 none -- a>3'
chained 2 5000 0 'job top:2 mark 5000 reducer 0 of 2 -- a>3 b>1'
chained 2 5000 1 'job top:2 mark 5000 reducer 1 of 2 --'
holds part-0 'b>2 '
holds part-1 'a>3 c>3 '
holds j2-part-0 'a>3 c>3 '
holds j2-part-1 ''
traces 2 2 'begun 0 1 begun 1 1 reducer 0 arrive 0 0 0 2 s0 won 0 0 arrive 1 0 0 2 s0 won 1 0 finish reducer 1 arrive 0 0 0 2 s0 won 0 0 arrive 1 0 0 2 s0 won 1 0 finish'
end

begin 'each mark has its own snapshot of the later job'
printf 'a\nb b\n' >in
run chain wc top in --k 1 --marks 5000,10000 --split 1 --workers 1
ended 0 '' 'done records=2 splits=2 parts=1 snapshots=2 attempts=2 pulled=0 settled=2 jobs=2' \
    'in j2-part-0 j2-snap-10000-0 j2-snap-5000-0 part-0 snap-10000-0 snap-5000-0 spill-0 trace '
snapped 5000 0 'reducer 0 of 1 progress 5000 split 0 attempt 0 records 1 of 1 tentative split 1 none -- a>1'
snapped 10000 0 'reducer 0 of 1 progress 10000 split 0 attempt 0 records 1 of 1 committed split 1 attempt 0 records 1 of 1 tentative -- a>1 b>2'
chained 2 5000 0 'job top:1 mark 5000 reducer 0 of 1 -- a>1'
chained 2 10000 0 'job top:1 mark 10000 reducer 0 of 1 -- b>2'
holds part-0 'a>1 b>2 '
holds j2-part-0 'b>2 '
end

begin 'a chain of four jobs'
printf "$counts" >in
run chain wc top wc max in --k 2 --workers 1 --marks 10000
ended 0 '' 'done records=3 splits=1 parts=1 snapshots=1 attempts=1 pulled=0 settled=1 jobs=4' \
    'in j2-part-0 j2-snap-10000-0 j3-part-0 j3-snap-10000-0 j4-part-0 j4-snap-10000-0 part-0 snap-10000-0 spill-0 trace '
for file in part-0 j2-part-0 j3-part-0 j4-part-0; do
    case $file in
        part-0) holds $file 'a>3 b>2 c>1 ' ;;
        j2-part-0) holds $file 'a>3 b>2 ' ;;
        *) holds $file '2>1 3>1 a>1 b>1 ' ;;
    esac
done
chained 2 10000 0 'job top:2 mark 10000 reducer 0 of 1 -- a>3 b>2'
chained 3 10000 0 'job wc mark 10000 reducer 0 of 1 -- 2>1 3>1 a>1 b>1'
chained 4 10000 0 'job max mark 10000 reducer 0 of 1 -- 2>1 3>1 a>1 b>1'
end

begin 'a chain of no records'
: >in
run chain wc sum in --marks 1
ended 0 '' 'done records=0 splits=0 parts=1 snapshots=1 attempts=0 pulled=0 settled=0 jobs=2' 'in j2-part-0 j2-snap-1-0 part-0 snap-1-0 trace '
chained 2 1 0 'job sum mark 1 reducer 0 of 1 --'
holds part-0 ''
holds j2-part-0 ''
end

begin 'a chain with a failed attempt'
printf "$four" >in
echo 'fail 0 0 1' >script
run chain wc top in --k 1 --split 2 --spill 1 --workers 1 --script script
ended 0 '' 'done records=4 splits=2 parts=1 snapshots=0 attempts=3 pulled=0 settled=5 jobs=2' 'in j2-part-0 part-0 script spill-0 trace '
holds part-0 'a>2 b>1 c>1 '
holds j2-part-0 'a>2 '
echo 'fail 1 0 0' >script
rm part-0 j2-part-0
run chain wc top in --split 2 --spill 1 --workers 1 --script script --attempts 1
ended 5 'hop: split 1 has spent its attempts' '' 'in script spill-0 trace '
end

for words in 'chain' 'chain wc' 'chain wc in' 'chain wc top' 'chain wc top sum max wc in' 'chain wc sort in' 'chain sort wc in' 'chain wc top ../in' \
    'chain wc top in --turns t' 'chain wc top in --trace t' 'chain wc top in --k 0' 'chain wc top in --marks 5,5' 'run wc top in' 'replay wc top in --turns t'; do
    begin "not understood: $words"
    printf "$counts" >in
    # shellcheck disable=SC2086
    run $words
    ended 1 "$usage" '' 'in '
    end
done

begin 'directories where files of a chain go'
printf "$counts" >in
mkdir j2-part-1
run chain wc top in --reducers 2 --workers 1 --marks 10000
ended 6 'hop: the job folder failed' '' 'in j2-part-0 j2-part-1 j2-snap-10000-0 j2-snap-10000-1 part-0 part-1 snap-10000-0 snap-10000-1 spill-0 trace '
holds j2-part-0 'a>3 b>2 c>1 '
rm -rf j2-* part-* snap-* spill-0 trace
mkdir j2-snap-10000-1
run chain wc top in --reducers 2 --workers 1 --marks 10000
ended 6 'hop: the job folder failed' '' 'in j2-snap-10000-0 j2-snap-10000-1 snap-10000-0 snap-10000-1 spill-0 '
chained 2 10000 0 'job top:10 mark 10000 reducer 0 of 2 -- a>3 b>2 c>1'
end

begin 'the greatest number of splits, and one more'
yes x | head -1024 >in
run run wc in --split 1
ended 0 '' 'done records=1024 splits=1024 parts=1 snapshots=0 attempts=1024 pulled=0 settled=1024' 'in part-0 spill-0 spill-1 trace '
holds part-0 'x>1024 '
rm -rf part-0 trace spill-0 spill-1
echo x >>in
run run wc in --split 1
ended 3 'hop: 1025 splits are too many' '' 'in '
end

begin 'too many spills'
yes x | head -65537 >in
run run wc in --split 65536 --spill 1
ended 3 'hop: 65537 spills are too many' '' 'in '
end

begin 'what a run reads is missing or bad'
run run wc none
ended 2 'hop: cannot read the input' '' ''
printf "$four" >in
run run wc in --script none
ended 2 'hop: cannot read the script' '' 'in '
run replay wc in --turns none
ended 2 'hop: cannot read the turn list' '' 'in '
printf 'fail 0 0\n' >s
run run wc in --script s
ended 4 'hop: line 1 of the script is not understood' '' 'in s '
printf 'm0\nm9\n' >t
run replay wc in --workers 1 --turns t
ended 4 'hop: line 2 of the turn list is not understood' '' 'in s t '
end

begin 'a file in place of a spill folder'
printf "$four" >in
echo mine >spill-0
run run wc in --workers 1
ended 7 'hop: spill folder 0 failed' '' 'in spill-0 '
holds spill-0 'mine '
end

begin 'a directory where the trace goes'
printf "$four" >in
mkdir trace
run run wc in --workers 1
ended 6 'hop: the job folder failed' '' 'in part-0 spill-0 trace '
end

begin 'standard output is closed'
printf "$counts" >in
"$program" block wc in 2>"$top/err" >&-
status=$?
: >"$top/out"
ended 11 'hop: cannot write the summary' '' 'in part-0 '
holds part-0 'a>3 b>2 c>1 '
end

if [ -c /dev/full ]; then
    begin 'standard output is full'
    printf "$counts" >in
    "$program" block wc in 2>"$top/err" >/dev/full
    status=$?
    : >"$top/out"
    ended 11 'hop: cannot write the summary' '' 'in part-0 '
    holds part-0 'a>3 b>2 c>1 '
    end
else
    skip 'standard output is full: this machine has no /dev/full'
fi

begin 'standard error is closed too'
"$program" block wc none 2>&- >"$top/out"
status=$?
: >"$top/err"
ended 2 '' '' ''
end

# ---- examples

# Runs the command of a page, if there is one, and notes where its output isn't what the page has.
step() {
    if [ -n "$command" ]; then
        (cd "$top/work" && PATH="$top/bin:$PATH" sh -c "$command") >"$top/out" 2>&1 </dev/null
        cmp -s "$top/wanted" "$top/out" || fault="$fault; $command: wanted <$(cat "$top/wanted")>, found <$(cat "$top/out")>"
        steps=$((steps + 1))
    fi
    command=''
    : >"$top/wanted"
}

# The lines of a page that begin with `$ `, in its blocks of kind console, are commands. Behind each stands exactly what it prints.
tell() {
    command=''
    steps=0
    inside=no
    while IFS= read -r line; do
        case "$inside $line" in
            'no ```console') inside=yes; step ;;
            'yes ```') inside=no; step ;;
            'yes $ '*) step; command=${line#'$ '} ;;
            'yes '*) printf '%s\n' "$line" >>"$top/wanted" ;;
        esac
    done <"$1"
    step
    [ "$steps" -gt 0 ] || fault="$fault; no command"
}

mkdir "$top/bin" && ln -s "$program" "$top/bin/hop" || exit 1
for page in "$examples"/*/README.md; do
    folder=$(dirname "$page")
    begin "the example $(basename "$folder")"
    cp "$folder"/* .
    tell "$page"
    end
done

echo
if [ "$skipped" -gt 0 ]; then
    echo "$passed passed, $failed failed, $skipped skipped"
else
    echo "$passed passed, $failed failed"
fi
[ "$failed" -eq 0 ]
