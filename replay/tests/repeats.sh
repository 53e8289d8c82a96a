# shellcheck shell=bash disable=SC2154 # what check sets
# Parts of a list that are repeated.

# The first and the last round call by call, and a row after each round. Of a part that is one call every round. 900 counts less 2800 / 703.125 are 896.018,
# and three windows of 5, 0.007 counts each, bring it below 896.
list rounds.txt 'open bench\nrepeat 4\n  nac 900 # again\n\n  -2800 3650 1192\nend\nrepeat 3\n-5 3650 1192\nend\nrest 1 1192\n'
run rounds.txt
expect "rounds: the table" "\
      time number   NAC   LMD RSOC        FLAGS   CAC   TTE call
0:00:00.00      0     0  1024    0           CI     0 65535 $bench_open
# repeat 4
0:00:00.00      0   900  1024   87           CI   900 65535 nac 900
0:00:05.12      0   896  1024   87           CI   779    16 window -2800 3650 1192
0:00:05.12      0   896  1024   87           CI   779    16 round 1 of 4
0:00:10.24      0   896  1024   87           CI   779    16 round 2 of 4
0:00:15.36      0   896  1024   87           CI   779    16 round 3 of 4
0:00:15.36      0   900  1024   87           CI   783    16 nac 900
0:00:20.48      0   896  1024   87           CI   779    16 window -2800 3650 1192
0:00:20.48      0   896  1024   87           CI   779    16 round 4 of 4
0:00:25.60      0   896  1024   87           CI   896 10752 window -5 3650 1192
0:00:30.72      0   896  1024   87           CI   896 10752 window -5 3650 1192
0:00:35.84      0   895  1024   87           CI   895 10740 window -5 3650 1192
0:00:40.96      0   895  1024   87           CI   895 65535 rest 1 1192
# 13 calls, none refused 0" "$(cat printed) $status$(cat messages)"

calls_and_rounds() { # LINE ..: the calls and rounds that the table has after an opening
    { echo 'open bench'; printf '%s\n' "$@"; } >rounds.txt
    run rounds.txt
    rows | sed '1d; s/.* \(window\|rest\|nac\|done\|round\|read\) /\1 /; s/.* done$/done/'
}
expect "repeat 1" "nac 5
rest 1 1192
round 1 of 1" "$(calls_and_rounds 'repeat 1' 'nac 5' 'rest 1 1192' 'end')"
expect "repeat 2" "nac 5
rest 1 1192
round 1 of 2
nac 5
rest 1 1192
round 2 of 2" "$(calls_and_rounds 'repeat 2' 'nac 5' 'rest 1 1192' 'end')"
expect "a repeat of nothing" "round 1 of 3
round 2 of 3
round 3 of 3" "$(calls_and_rounds 'repeat 3' '# nothing' 'end')"
expect "a repeat in a repeat" "done
rest 1 1192
rest 1 1192
round 1 of 3
round 2 of 3
done
rest 1 1192
rest 1 1192
round 3 of 3" "$(calls_and_rounds 'repeat 3' 'done' 'repeat 2' 'rest 1 1192' 'end' 'end')"
expect "a repeat in a repeat: its calls" "# 10 calls, none refused" "$(tail -n 1 printed)"
expect "a repeat alone in a repeat" "rest 1 1192
rest 1 1192
round 1 of 2
rest 1 1192
rest 1 1192
round 2 of 2" "$(calls_and_rounds 'repeat 2' 'repeat 2' 'rest 1 1192' 'end' 'end')"
expect "rounds in rounds" "nac 5
done
round 1 of 3
round 2 of 3
nac 5
done
round 3 of 3
round 1 of 3
round 2 of 3
nac 5
done
round 1 of 3
round 2 of 3
nac 5
done
round 3 of 3
round 3 of 3" "$(calls_and_rounds 'repeat 3' 'repeat 3' 'nac 5' 'done' 'end' 'end')"
expect "rounds in rounds: their calls" "# 19 calls, none refused" "$(tail -n 1 printed)"
expect "rounds in rounds: what is announced" "# repeat 3
# repeat 3
# repeat 3" "$(grep '^# repeat' printed)"
expect "a read in every round" "3 reads of 3" "$(calls_and_rounds 'repeat 3' 'read 0 1' 'end' | grep -c read) reads of $(grep -c '^# 0x00' printed)"

# unrolled ROUNDS LINE ..: the repeat of these lines ends as the lines written out: the same registers in the last row, the same calls and the same bytes.
unrolled() {
    local rounds=$1
    shift
    { echo 'open bench'; echo "repeat $rounds"; printf '%s\n' "$@"; echo end; } >rounds.txt
    { echo 'open bench'; for ((i = 0; i < rounds; i++)); do printf '%s\n' "$@"; done; } >written.txt
    run --all --save rounds.saved rounds.txt
    local got
    got=$(registers | tail -n 1)$(grep '^# [0-9]' printed)
    run --all --save written.saved written.txt
    expect "$rounds rounds of $*: registers and calls" "$(registers | tail -n 1)$(grep '^# [0-9]' printed)" "$got"
    expect "$rounds rounds of $*: saved bytes" "$(cat written.saved)" "$(cat rounds.saved)"
}
unrolled 7 'nac 900' '-2800 3650 1192' 'rest 100 1192'
unrolled 40 'done' 'repeat 20' '-28011 3600 1192' 'end' '-28011 2900 1192'
unrolled 12 '20 4150 1192' '-8000 3500 1192' '-8000 2900 1192' 'lmd 900' 'partial'
unrolled 5 'open bench' 'done' '-8000 3500 1192'
unrolled 9 '28012 3600 1192' '-8000 3500 1192' 'lmd 0' 'preview 1'

# A round has the number of the first call that is refused in it, however deep that stands. All of them are counted.
list refused.txt 'open bench\nrepeat 4\ndone\nrepeat 5\nrest 1 1011\n28012 3600 1192\nend\nlmd 0\nend\n28012 3600 1192\n'
run refused.txt
expect "refused in rounds: their numbers" "1:5 2:5 3:5 4:5 5:5 1:5 2:5 3:5 1:5 2:5 3:5 4:5 5:5 4:5" \
    "$(rows | awk '$9 == "round" { printf "%s%s:%s", (n++ ? " " : ""), $10, $2 }')"
expect "refused in rounds: summary" "# 50 calls, 45 refused
# refused with 3 (current out of range): 21, first refused.txt:6
# refused with 5 (temperature out of range): 20, first refused.txt:5
# refused with 11 (WRTLMD with AR 0): 4, first refused.txt:8" "$(grep '^# [0-9]\|^# refused' printed)"
list refused.txt 'repeat 3\nopen 04\nread 0 1\nend\nopen bench\nrepeat 2\ndone\nlmd 0\nend\n'
run refused.txt
expect "refused in rounds: without a gauge" "1 - 1 - 1 - 11 1024 11 1024" "$(rows | awk '$9 == "round" { printf "%s%s %s", (n++ ? " " : ""), $2, $3 }')"

# The time of all rounds: 10,000 months and a window each.
list months.txt 'open bench\nrepeat 10000\nrest 506250 1180\n0 3700 1192\nend\n'
run months.txt
expect "10000 rounds: in line" "7200014:13:20.00 7200014:13:20.00" "$(rows | tail -n 1 | cut -c 1-16) $(rows | tail -n 1 | awk '{ print $1 }')"
expect "10000 rounds: rows and calls" "10005 # 20001 calls, none refused" "$(rows | wc -l) $(tail -n 1 printed)"

# The first column is as wide as the greatest time needs: 712 months in two repeats of 10,000 are 51,264,000,000,000 hours, in hundredths just more than 64 bits
# hold. Only the heading is read, and the run ends with the pipe.
{ printf 'open bench\nrepeat 10000\nrepeat 10000\n'; for _ in {1..712}; do echo 'rest 506250 1180'; done; printf 'end\nend\n'; } >widest.txt
heading=$({ "$replay" widest.txt || :; } | head -n 1)
expect "the widest time" "$(printf '%23s' time)" "${heading%% number*}"

# Over two lists, and on another day.
list first.txt 'open bench\nrepeat 2\nnac 9\nend\n'
list second.txt 'repeat 3\nnac 8\ndone\nend\n'
run --save both.saved first.txt second.txt
expect "repeats in two lists" "# 9 calls, none refused 0" "$(tail -n 1 printed) $status"
run both.saved second.txt
expect "repeats on another day" "# 7 calls, none refused 0" "$(tail -n 1 printed) $status"

# README.md shows this list and some lines of what is printed for it. A shift is 1000 * 560 / 703.125 = 796.4 counts, and the 720 of both seasons are 720 * 796.444 / 1024 = 560
# cycles to the grain, 0x230. At the end of the first CAC is 227 - 3, and TTE floor(60 * 224 / 560) = 24; at the end of the last it is 227 - 190, and TTE 3: cycles.sh has
# the 3 and the 190.
status=0
(cd "$root" && "$replay" replay/examples/two-seasons.txt) >printed || status=$?
expect "two-seasons.txt: its calls" "0 # 721082 calls, none refused" "$status $(tail -n 1 printed)"
expect "two-seasons.txt: CYCT" "# 0x2A: 30 02" "$(grep '^# 0x2A' printed)"
expect "two-seasons.txt: CAC and TTE at the end of the first shift and of the last" "227 224 24
227 37 3" "$(rows | awk '$9 == "window" { n++; last = $3 " " $7 " " $8; if (n == 1000) print last } END { print last }')"
sed -n '/two-seasons.txt. prints these/,/calls, none refused/s/^    //p' "$root/replay/README.md" >shown
expect "README.md: how many lines of the table of two-seasons.txt" 24 "$(wc -l <shown)"
expect "README.md: the lines of the table of two-seasons.txt" "" "$(grep -vx '\.\.' shown | grep -vxFf printed || :)"
cp "$root/replay/examples/two-seasons.txt" printed
shown_in_readme "two-seasons.txt"
