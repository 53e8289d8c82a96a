# shellcheck shell=bash disable=SC2154 # what check sets
# Right lists: the table for them.

# NAC, LMD, RSOC and FLAGS are those that the request prints for these three windows, CAC 892 and TTE 17 those of its proved examples. The
# other registers are its formulas worked out by hand: CAC is NAC - 0 without a drain; FCAC 1024 - 127 = 897; STTE 60 * 1024 / 10 = 6144
# and floor(60 * 1019 / 10) = 6114; TTF 90 * 0 / 20 = 0; ARTTE 65535 as AR is 0; MODE 0x44 as opened, and full clears INIT.
# NAC 1019 is the bytes FB 03.
run "$parts/bench-pack.txt"
expect "bench pack: status" 0 "$status"
expect "bench pack: no messages" "" "$(cat messages)"
expect "bench pack: table" "$(cat "$parts/bench-pack.table")" "$(cat printed)"
run --all "$parts/bench-pack.txt"
expect "bench pack: table with --all" "$(cat "$parts/bench-pack-all.table")" "$(cat printed)"
run - <"$parts/bench-pack.txt"
expect "bench pack: as -" "$(cat "$parts/bench-pack.table")" "$(cat printed)"
run <"$parts/bench-pack.txt"
expect "bench pack: on standard input" "$(cat "$parts/bench-pack.table")" "$(cat printed)"

# FLAGS of the request's output, 16, 148 and 20, by name.
run "$parts/bench-pack.txt"
expect "bench pack: FLAGS" "CI CHGS+CI+VDQ CI+VDQ" "$(rows | awk '$9 == "window" { printf "%s%s", (n++ ? " " : ""), $6 }')"

calls_of() { # TEXT: the calls of a list as the table shows them
    list calls.txt "$1"
    run calls.txt
    rows | awk '{ for (i = 1; i <= 8; i++) $i = ""; print }' | sed 's/^ *//'
}

bench_open='open 04 5E 77 05 21 10 00 00 6C 15'
expect "normal form: open" "$bench_open"$'\n'"$bench_open"$'\n'"$bench_open" \
    "$(calls_of 'open bench\nopen 045e7705 2110 00006C15\nopen\t04 5E 77 05 21 10 00 00 6C 15\n')"
expect "normal form: numbers" "$bench_open"$'\nwindow 0 -7 1192\nrest 16875 1180\nwrite 0x01 0x10\nread 0x0C 2\nnac 900\nlmd 900' \
    "$(calls_of 'open bench\n-0 -007 01192\nrest 016875 1180\nwrite 1 0x10\nread 12 0x2\nnac 0900\nlmd 900\n')"
expect "normal form: commands" "$bench_open"$'\ndone\nreset\npartial' "$(calls_of 'open bench\ndone\nreset\npartial\n')"
expect "normal form: previews" "$bench_open"$'\npreview 0xA9\npreview 0x09\npreview nac 900\npreview lmd 65535\npreview done\npreview reset\npreview partial' \
    "$(calls_of 'open bench\npreview 169\npreview 0x9\npreview  nac 0900\n\tpreview\tlmd 65535 # look\npreview done\npreview reset\npreview partial\n')"
expect "normal form: estimates" "$bench_open"$'\nestimate 3700\nestimate -5\nestimate 0' \
    "$(calls_of 'open bench\nestimate 03700\n\testimate  -05 # no voltage\nestimate -0\n')"
expect "normal form: greatest numbers" "$bench_open
window -2147483648 2147483647 -2147483648
rest 4294967295 2147483647
write 0xFFFFFFFF 0xFF
read 0xFFFFFFFF 4294967295
nac 65535
lmd 65535
estimate -2147483648
estimate 2147483647" "$(calls_of 'open bench
window -2147483648 2147483647 -2147483648
rest 4294967295 2147483647
write 4294967295 255
read 0xffffffff 0xFFFFFFFF
nac 65535
lmd 65535
estimate -2147483648
estimate 2147483647
')"
expect "c v t in the second list opens nothing" "$bench_open"$'\nwindow 2 3700 1192\nwindow 3 3700 1192' \
    "$(list second.txt 'c v t\n3 3700 1192\n'; list first.txt 'c v t\n2 3700 1192\n'; run first.txt second.txt; rows | sed 's/.*  *\(open\|window\)/\1/')"
expect "c v t opens where the list before it has no call" "$bench_open" \
    "$(list second.txt 'c v t\n'; list first.txt '# none\n'; run first.txt second.txt; rows | sed 's/.*open/open/')"
expect "c v t after load opens nothing" "1 call" \
    "$(list first.txt 'load 01\n'; list second.txt 'c v t\n'; run first.txt second.txt; sed -n 's/^# \(1 call\).*/\1/p' printed)"

thousand="# $(printf '%0998d' 0)"
expect "a line of 1000 bytes is right" "$bench_open" "$(calls_of "open bench\n$thousand\n")"
expect "bytes above 127 in a comment are right" "$bench_open" "$(calls_of 'open bench # 20 \0302\0260C\n')"

empty_table='      time number   NAC   LMD RSOC        FLAGS   CAC   TTE call
# 0 calls, none refused'
list empty.txt ''
run empty.txt
expect "an empty list" "$empty_table 0" "$(cat printed) $status"
list empty.txt '\n# nothing\n\t \n#'
run empty.txt
expect "a list without calls" "$empty_table 0" "$(cat printed) $status"

# 16875 windows of 5.12 s are a day to the hundredth, and 506250, thirty days, the most that a rest takes. An empty gauge has no charge to leak, so its
# registers stay as opened.
list months.txt 'open bench\n0 3700 1192\nrest 506251 1180\nrest 16874 1180\nrest 16876 1180\nrest 506249 1180\nrest 506250 1180\nrest 4294967295 1180\n'
run months.txt
expect "time of rests, in line" "         time number   NAC   LMD RSOC        FLAGS   CAC   TTE call
   0:00:00.00      0     0  1024    0           CI     0 65535 $bench_open
   0:00:05.12      0     0  1024    0           CI     0 65535 window 0 3700 1192
   0:00:05.12      6     0  1024    0           CI     0 65535 rest 506251 1180
  24:00:00.00      0     0  1024    0           CI     0 65535 rest 16874 1180
  48:00:05.12      0     0  1024    0           CI     0 65535 rest 16876 1180
 768:00:00.00      0     0  1024    0           CI     0 65535 rest 506249 1180
1488:00:00.00      0     0  1024    0           CI     0 65535 rest 506250 1180
1488:00:00.00      6     0  1024    0           CI     0 65535 rest 4294967295 1180
# 8 calls, 2 refused
# refused with 6 (rest length out of range): 2, first months.txt:3" "$(cat printed)"

awk 'BEGIN { print "c v t"; for (i = 0; i < 200000; i++) print "0 3700 1192" }' >long.txt
run long.txt
expect "a list of 200000 windows" "# 200001 calls, none refused 284:26:40.00" \
    "$(tail -n 1 printed) $(rows | tail -n 1 | awk '{ print $1 }')"

# Request A1: a steady load of 40 from SI 30 comes to be shown, where 490 / 16 floored to 30 for ever. SI is kept in sixteenths, and the register
# shows the ceiling: 480 (30), then floor(15 * 480 / 16) + 40 = 490 (31), 459 + 40 = 499 (32), 467 + 40 = 507 (32), and so on up to 625 (40), where
# floor(15 * 625 / 16) + 40 is 625 again. A load of 20 brings it down: 585 + 20 = 605 (38), 567 + 20 = 587 (37), and so on to 320 (20), which stays.
# STTE divides by what is shown: NAC 511 after the first window gives floor(60 * 511 / 31) = 989. After 60 windows of 40, 3.4 counts, NAC is 508 and
# STTE 60 * 508 / 40 = 762; after 60 more of 20, 1.7 counts, 506 and 60 * 506 / 20 = 1518.
standby_pack='open 04 5E 77 0F 21 10 00 00 6C 15\nnac 512\n'
standby_of() { # rows of the table, by number: NAC, SI, STTE
    local row
    for row in "$@"; do registers | sed -n "${row}p" | awk '{ print $1, $15, $16 }'; done
}
list standby.txt "$standby_pack$(printf -- '-40 3800 1192\\n%.0s' {1..60})$(printf -- '-20 3800 1192\\n%.0s' {1..60})"
run --all standby.txt
expect "steady load: NAC, SI, STTE at its begin" "512 30 1024
511 31 989
511 32 958
511 32 958" "$(standby_of 2 3 4 5)"
expect "steady load: NAC, SI, STTE at its end" "508 40 762" "$(standby_of 62)"
expect "steady load: SI falls" "38 37" "$(standby_of 63 64 | awk '{ printf "%s%s", (NR > 1 ? " " : ""), $2 }')"
expect "steady load: NAC, SI, STTE after the fall" "506 20 1518" "$(standby_of 122)"

# Only a discharge of at most 2 * S0 = 60 moves it: 450 + 60 = 510 (32). More, none (2 units are within DMF), charging and a rest leave it;
# PRST and FRST set 16 * S0.
list standby.txt "$standby_pack-61 3800 1192\n-2 3800 1192\n100 3800 1192\nrest 10 1192\n-60 3800 1192\npartial\n-60 3800 1192\nreset\n"
run --all standby.txt
expect "what moves SI" "30 30 30 30 30 30 32 30 32 30" "$(registers | awk '{ printf "%s%s", (NR > 1 ? " " : ""), $15 }')"
