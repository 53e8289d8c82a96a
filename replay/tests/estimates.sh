# shellcheck shell=bash disable=SC2154 # what check sets
# The charge of a rested cell by its voltage (request A4): floor(permille * LMD / 1000), and its distance from NAC.

# What each accepted estimate gave: counts and distance.
given() {
    sed -n 's/^# *estimate *\([0-9]*\) distance \(-\{0,1\}[0-9]*\)$/\1 \2/p' printed
}

# The whole table, asked of an empty gauge with LMD 1000, whose estimate is the permille itself. It is the floored straight line between nine points,
# in steps of 4 mV, and a voltage between two entries takes the lower.
{
    printf 'open bench\nlmd 1000\nrest 422 1192\n'
    for ((voltage = 3000; voltage <= 4200; voltage++)); do echo "estimate $voltage"; done
} >table.txt
run table.txt
expect "the table: every voltage is taken" "# 1204 calls, none refused" "$(tail -n 1 printed)"
expect "the table: the nine points" "0 40 140 350 560 700 830 930 1000" \
    "$(given | awk 'NR ~ /^(1|401|601|701|801|901|1001|1101|1201)$/ { printf "%s%s", (n++ ? " " : ""), $1 }')"
expect "the table: its rule" "$(awk 'BEGIN {
    last = split("3000 3400 3600 3700 3800 3900 4000 4100 4200", v)
    split("0 40 140 350 560 700 830 930 1000", p)
    at = 1
    for (voltage = 3000; voltage <= 4200; voltage++) {
        entry = voltage - voltage % 4
        while (at < last - 1 && entry > v[at + 1]) at++
        permille = p[at] + int((p[at + 1] - p[at]) * (entry - v[at]) / (v[at + 1] - v[at]))
        print permille, permille
    }
}')" "$(given)"

# estimate_of LMD VOLTAGE: of an empty gauge.
estimate_of() {
    list lmd.txt "open bench\nlmd $1\nrest 422 1192\nestimate $2\n"
    run lmd.txt
    given
}

# 350 * 1023 / 1000 = 358.05. 4199 takes the entry of 4196, 930 + floor(70 * 96 / 100) = 997 permille: 65338.395 of 65535 counts.
expect "LMD 1023 at 3700 mV" "358 358" "$(estimate_of 1023 3700)"
expect "LMD 65535 at 4199 mV" "65338 65338" "$(estimate_of 65535 4199)"
expect "LMD 65535 at 4200 mV" "65535 65535" "$(estimate_of 65535 4200)"
expect "LMD 1 at 4199 mV" "0 0" "$(estimate_of 1 4199)"
expect "LMD 1 at 4200 mV" "1 1" "$(estimate_of 1 4200)"

# The distance is that of NAC, the whole counts: a rest at 1192 takes some of the 512th count, so NAC is 511. 560 * 1024 / 1000 = 573.44; 573 - 511 = 62.
list distance.txt 'open bench\nnac 512\nrest 422 1192\nestimate 3800\nnac 573\nestimate 3800\nnac 1024\nestimate 3800\nlmd 65535\nnac 65535\nestimate 3000\n'
run distance.txt
expect "distances" "573 62
573 0
573 -451
0 -65535" "$(given)"

# after NUMBER LINE ..: an estimate that follows these lines has this number.
after() {
    local number=$1
    shift
    { printf 'open bench\n'; printf '%s\n' "$@"; echo 'estimate 3700'; } >after.txt
    run after.txt
    expect "an estimate after $*" "$number" "$(rows | tail -n 1 | awk '{ print $2 }')"
}

# 422 windows of rests, however they are divided and at whatever temperatures.
after 15 '# nothing'
after 15 'rest 421 1192'
after 0 'rest 422 1192'
after 15 'rest 400 1192' 'rest 21 1012'
after 0 'rest 400 1192' 'rest 22 1012'
# A window whose current is not counted, DMF being 2, neither counts nor clears.
after 15 'rest 421 1192' '2 3700 1192'
after 0 'rest 421 1192' '2 3700 1192' '0 3700 1192' '-2 3700 1192' 'rest 1 1192'
# A counted current clears, and the count begins anew.
after 15 'rest 422 1192' '3 3700 1192'
after 15 'rest 422 1192' '-3 3700 1192'
after 15 'rest 422 1192' '-3 3700 1192' 'rest 421 1192'
after 0 'rest 422 1192' '-3 3700 1192' 'rest 422 1192'
# So do opening and the two resets. The settings, writes of MODE and AR, and what only looks keep the count.
for line in 'open bench' reset partial; do
    after 15 'rest 422 1192' "$line"
    after 0 "$line" 'rest 422 1192'
done
for line in 'nac 500' 'lmd 900' 'done' 'write 1 0x0A' 'write 2 5' 'read 0 128' 'preview reset' 'preview partial' 'preview nac 5' 'estimate 3700'; do
    after 0 'rest 422 1192' "$line"
    after 15 'rest 421 1192' "$line"
done
# A refused call neither counts nor clears.
for line in '28012 3700 1192' '-100 2599 1192' '-100 3700 1373' 'rest 0 1192' 'rest 506251 1192' 'rest 1 1011' 'lmd 0' 'write 0 0x57' 'open 04' 'load 03'; do
    after 0 'rest 422 1192' "$line"
    after 15 'rest 421 1192' "$line"
done

# Too little rest comes before a voltage outside the table.
list order.txt 'open bench\nestimate 2999\nestimate 4201\nrest 422 1192\nestimate 2999\nestimate 3000\nestimate 4200\nestimate 4201\nestimate -2147483648\nestimate 2147483647\n'
run order.txt
expect "numbers of estimates" "15 15 16 0 0 16 16 16" "$(rows | awk '$9 == "estimate" { printf "%s%s", (n++ ? " " : ""), $2 }')"

# counted TITLE COUNT LINE ..: the count in the saved bytes after these lines: the four at 41.
counted() {
    { printf 'open bench\n'; printf '%s\n' "${@:3}"; } >count.txt
    run --save count.saved count.txt
    expect "the count saved: $1" "$(number_bytes "$2" 4)" "$(awk '{ print " " $43 " " $44 " " $45 " " $46 }' count.saved)"
}

# Up to 65535 two bytes would do, and it stopped there before form 5: four days are 67500 windows.
counted "none" 0 'nac 500'
counted "a day" 16875 'rest 16875 1192'
counted "before two bytes are full" 65534 'rest 65534 1192'
counted "two bytes" 65535 'rest 65534 1192' 'rest 1 1192'
counted "past two bytes" 65536 'rest 65535 1192' 'rest 1 1192'
counted "four days" 67500 'repeat 4' 'rest 16875 1192' 'end'
counted "a month" 506250 'rest 506250 1192'
counted "two months, by days" 1012500 'repeat 60' 'rest 16875 1192' 'end'
counted "past three bytes" 17212500 'repeat 34' 'rest 506250 1192' 'end'
counted "cleared" 0 'rest 506250 1192' '-3 3700 1192'
# It stops at 4294967295, which 8484 months would pass: 8483 * 506250 + 448544 = 4294967294.
months=('repeat 8483' 'rest 506250 1192' 'end')
counted "before its end" 4294967294 "${months[@]}" 'rest 448544 1192'
counted "at its end" 4294967295 "${months[@]}" 'rest 448545 1192'
counted "past its end" 4294967295 "${months[@]}" 'rest 448546 1192'
counted "8484 months" 4294967295 "${months[@]}" 'rest 506250 1192'
counted "cleared at its end" 0 "${months[@]}" 'rest 506250 1192' 'partial'
after 0 "${months[@]}" 'rest 506250 1192' 'rest 1 1192'

# It goes on another day.
list rested.txt 'open bench\nrest 400 1192\n'
run --save rested.saved rested.txt
list goes-on.txt 'estimate 3700\nrest 21 1192\nestimate 3700\nrest 1 1192\nestimate 3700\n'
run rested.saved goes-on.txt
expect "a rest goes on another day" "0 15 0 15 0 0" "$(rows | awk '{ printf "%s%s", (NR > 1 ? " " : ""), $2 }')"

# Wherever estimates stand, accepted or refused, the other rows and the saved bytes are those of the list without them.
awk '1; /^[^#]/ { print "estimate 3700\nestimate 5000" }' "$root/replay/examples/monday.txt" >between.txt
run --all --save between.saved between.txt
expect "estimates between the calls: they are made" "2 estimates given of 18" "$(given | wc -l) estimates given of $(rows | grep -c ' estimate ')"
between=$(rows | grep -v ' estimate ')
run --all --save without.saved "$root/replay/examples/monday.txt"
expect "estimates between the calls: the other rows" "$(rows)" "$between"
expect "estimates between the calls: the saved bytes" "$(cat without.saved)" "$(cat between.saved)"

# README.md shows this list and what is printed for it. By the table 3719 mV is the entry of 3716, 350 + floor(210 * 16 / 100) = 383 permille:
# floor(383 * 1024 / 1000) = 392 counts.
status=0
(cd "$root" && "$replay" replay/examples/rack.txt) >printed || status=$?
expect "README.md: rack.txt is run" "0 15" "$status $(wc -l <printed)"
expect "rack.txt: estimates" "392 -507
392 0" "$(given)"
shown_in_readme "the table of rack.txt"
cp "$root/replay/examples/rack.txt" printed
shown_in_readme "rack.txt"

# It shows the months on the shelf too. A month takes 506250 * W / 135000000 of the charge: 1.5 % at 12 degrees, W being 4; 0.75 % at 6, 2, 0 and 7; 0.375 % at -3. Of
# 780 counts 768.4, 762.7, 757.0, 754.1, 748.5 and 742.9 are left, and somewhat less as whole counts. 3747 mV is the entry of 3744, 350 + floor(210 * 44 / 100) = 442
# permille: floor(442 * 1024 / 1000) = 452 counts.
status=0
(cd "$root" && "$replay" replay/examples/shelf.txt) >printed || status=$?
expect "README.md: shelf.txt is run" "0 16" "$status $(wc -l <printed)"
expect "shelf.txt: NAC after each rest" "0:768 0:762 0:756 0:754 0:748 0:742 6:742" "$(rows | awk '$9 == "rest" { printf "%s%s:%s", (n++ ? " " : ""), $2, $3 }')"
expect "shelf.txt: estimate" "452 -290" "$(given)"
shown_in_readme "the table of shelf.txt"
cp "$root/replay/examples/shelf.txt" printed
shown_in_readme "shelf.txt"
