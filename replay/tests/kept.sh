# shellcheck shell=bash disable=SC2154 # what check sets
# What an older version kept goes on as the drive itself, made by the same calls in one run. The bytes are those of examples/firmware/older_forms.h.

# kept_by FORM COUNT [LINE ..]: a list that loads the bytes and one that makes their calls; COUNT are those of standby, the lines follow the opening.
kept_by() {
    local kept
    kept=$(sed -n "/^static const uint8_t kept_form_$1/,/^}/s|/\*.*||p" "$root/examples/firmware/older_forms.h" | grep -o '0x[0-9A-F]*')
    echo load "${kept//0x/}" | tr '\n' ' ' >kept.txt
    {
        printf '%s\n' 'open bench' "${@:3}" '20 4150 1192'
        for _ in {1..100}; do echo '-2800 3650 1200'; done
        printf 'write 2 0xE8\nwrite 3 0x03\n'
        for ((i = 0; i < $2; i++)); do echo '-5 3800 1196'; done
        for _ in {1..20}; do echo '-2800 3650 1200'; done
    } >before.txt
}
{
    for _ in {1..60}; do echo '-12 3800 1196'; done
    for _ in {1..40}; do echo '-8000 3500 1192'; done
    printf -- '-8000 3000 1192\n5000 3900 1208\nrest 100 1192\ndone\npartial\nnac 300\nlmd 500\nreset\n'
} >after.txt
rows_after=$(wc -l <after.txt)
head -n 101 after.txt >taught.txt

# of_last [COLUMN ..]: the registers of the last call before after.txt and of its calls, without these columns.
of_last() {
    registers | tail -n $((rows_after + 1)) | awk -v columns="$*" 'BEGIN { n = split(columns, left_out, " ") } { for (i = 1; i <= n; i++) $left_out[i] = ""; print }'
}

# goes_on VERSION LMD [COLUMN ..]: the run under way came over with its drain, and in the 101st window it teaches the LMD, as that version itself did from there.
# In every row the registers are those of the drive made in one run but for these columns.
goes_on() {
    run --all kept.txt after.txt
    expect "a drive of version $1: loaded" "# $((rows_after + 1)) calls, none refused" "$(tail -n 1 printed)"
    expect "a drive of version $1: LMD is taught" "1024 $2" "$(registers | awk 'NR == 101 { before = $2 } NR == 102 { print before, $2 }')"
    local of_kept
    of_kept=$(of_last "${@:3}")
    run --all before.txt after.txt
    expect "a drive of version $1 goes on" "$(of_last "${@:3}")" "$of_kept"
}

# saved_both [LIST ..]: what is saved after the kept bytes and after the calls, with these lists after them: of-kept.saved and of-calls.saved.
saved_both() {
    run --save of-kept.saved kept.txt "$@"
    run --save of-calls.saved before.txt "$@"
}

# without_cycles FILE: saved bytes with 0 for CYCT and the drain.
without_cycles() {
    sed "s/\( ..\)\{10\}\$/$(number_bytes 0 10)/" "$1"
}

# with_count BEFORE COUNT: saved bytes with another count of rest windows.
with_count() {
    sed "s/$(number_bytes "$1" 4)\(\( ..\)\{10\}\)\$/$(number_bytes "$2" 4)\1/"
}

# Of version 1.0.0 all but SI and STTE. No version before 4.0.0 counted cycles: CYCT may be less than in the drive made in one run.
kept_by 1 40
goes_on 1.0.0 1008 15 16 18

# Of version 2.1.1 SI and STTE too. It had rested for an hour, which it did not count: the bytes differ in that and in the cycle drain, a count of 0 in place
# of 703.
kept_by 2 15
echo 'rest 703 1180' >>before.txt
goes_on 2.1.1 1008 18
saved_both
expect "a drive of version 2.1.1: the bytes" "$(without_cycles of-calls.saved | with_count 703 0)" "$(cat of-kept.saved)"
expect "a drive of version 2.1.1: an hour of rest is not counted" "15 0" "$(estimate_on "$(cat kept.txt)") $(estimate_on "$(cat before.txt)")"
saved_both taught.txt
expect "a drive of version 2.1.1 goes on: the saved bytes" "$(without_cycles of-calls.saved)" "$(without_cycles of-kept.saved)"

# Version 3.0.0 kept the same drive with the hour's rest counted: the bytes differ in the cycle drain alone.
kept_by 3 15
echo 'rest 703 1180' >>before.txt
goes_on 3.0.0 1008 18
saved_both
expect "a drive of version 3.0.0: the bytes" "$(without_cycles of-calls.saved)" "$(cat of-kept.saved)"
expect "a drive of version 3.0.0: an hour of rest is counted" "0 0" "$(estimate_on "$(cat kept.txt)") $(estimate_on "$(cat before.txt)")"
saved_both taught.txt
expect "a drive of version 3.0.0 goes on: the saved bytes" "$(without_cycles of-calls.saved)" "$(without_cycles of-kept.saved)"

# Version 4.0.0 kept a season and that drive, and then five days in rests of a day: every register, CYCT too. The season is 300 * 230 * 2800 / 703.125 counts,
# 268 cycles and 341 counts; with 478 of the drive and 456 of the first 100 windows after it a 269th is complete. The bytes differ in the count alone: it had
# stopped at 65535, which is carried over as that number, and is 5 * 16875 = 84375 where it is counted now. The first current clears both.
kept_by 4 15 'repeat 300' '20 4150 1192' 'repeat 230' '-2800 3650 1200' 'end' 'end'
for _ in {1..5}; do echo 'rest 16875 1140'; done >>before.txt
goes_on 4.0.0 1009
expect "a drive of version 4.0.0: CYCT" "268 269" "$(of_last | awk '{ print $18 }' | sed -n '1p;101p' | xargs)"
saved_both
expect "a drive of version 4.0.0: the bytes" "$(with_count 84375 65535 <of-calls.saved)" "$(cat of-kept.saved)"
expect "a drive of version 4.0.0: days of rest are counted" "0 0" "$(estimate_on "$(cat kept.txt)") $(estimate_on "$(cat before.txt)")"
list one-more.txt 'rest 1 1140\n'
saved_both one-more.txt
expect "a drive of version 4.0.0: the count goes on" "$(with_count 84376 65536 <of-calls.saved)" "$(cat of-kept.saved)"
saved_both taught.txt
expect "a drive of version 4.0.0 goes on: the saved bytes" "$(cat of-calls.saved)" "$(cat of-kept.saved)"
