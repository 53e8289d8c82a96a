# shellcheck shell=bash disable=SC2154 # what check sets
# load takes bytes of every form; --save writes the newest. Form 1 has SI in whole units, at most 2 * S0; form 2, of request A1, in sixteenths,
# at most 32 * S0, in the same two bytes. The rest of their 41 bytes is the same. Form 3, of request A4, is form 2 and the count of rest windows, two
# bytes; form 4, of request A5, is form 3 and CYCT, two bytes, and the cycle drain, eight; form 5, of request A6, is form 4 with four bytes for the count.
# What an older one lacks is 0.

# gauge_of_form FORM SI [ISLC [COUNT [CYCT [DRAIN]]]]: a load line. The bench pack with 512 counts, 3700 mV and 1192 measured, no run, no current; S0 is
# 2 * ISLC, 10 without one. COUNT, of form 3 on, CYCT and DRAIN, of form 4 on, are 0 without one.
gauge_of_form() {
    local pair
    printf 'load%s 04 5E 77%s 21 10 00 00 6C 15' "$(number_bytes "$1" 1)" "$(number_bytes "${3:-5}" 1)"
    number_bytes $((512 * 135000000)) 8
    number_bytes 0 8
    for pair in 1024 "$2" 0 3700 1192 0; do number_bytes "$pair" 2; done
    printf ' 44 10'
    [ "$1" -lt 3 ] || number_bytes "${4:-0}" $(($1 < 5 ? 2 : 4))
    [ "$1" -lt 4 ] || { number_bytes "${5:-0}" 2; number_bytes "${6:-0}" 8; }
    echo
}

# saved_as TITLE LINE NEWEST: the line loads and is saved as the other.
saved_as() {
    echo "$2" >form.txt
    rm -f form.saved
    run --all --save form.saved form.txt
    expect "$1" "$3"$'\n'"# 1 call, none refused 0" "$(cat form.saved)"$'\n'"$(tail -n 1 printed) $status"
}

# refused_form TITLE LINE: the line is refused with 14 and leaves the gauge that was there.
refused_form() {
    printf 'open bench\n%s\n' "$2" >form.txt
    rm -f form.saved
    run --save form.saved form.txt
    expect "$1" "0 14"$'\n'"$opened" "$(rows | awk '{ printf "%s%s", (NR > 1 ? " " : ""), $2 }')"$'\n'"$(cat form.saved)"
}

# Form 1 is multiplied by 16: 7 is 112 sixteenths. Every register is that of form 5; SI shows ceil(112 / 16) = 7, STTE floor(60 * 512 / 7) = 4388.
saved_as "form 5 is saved as it is" "$(gauge_of_form 5 112)" "$(gauge_of_form 5 112)"
of_form_5=$(registers)
saved_as "form 1 is saved as form 5" "$(gauge_of_form 1 7)" "$(gauge_of_form 5 112)"
expect "form 1: the registers of form 5" "$of_form_5" "$(registers)"
expect "form 1: SI and STTE" "7 4388" "$(registers | awk '{ print $15, $16 }')"
for form in 2 3 4; do
    saved_as "form $form is saved as form 5" "$(gauge_of_form "$form" 112)" "$(gauge_of_form 5 112)"
    expect "form $form: the registers of form 5" "$of_form_5" "$(registers)"
done

# No form 1 has 113 sixteenths: ceil(113 / 16) = 8, STTE 60 * 512 / 8 = 3840.
for form in 2 3 4 5; do
    saved_as "form $form between two units" "$(gauge_of_form "$form" 113)" "$(gauge_of_form 5 113)"
    expect "form $form between two units: SI and STTE" "8 3840" "$(registers | awk '{ print $15, $16 }')"
done

# Each form by its own limit: S0 is 10, and 0 and 510 are the least and the greatest.
saved_as "form 1, SI 2 * S0" "$(gauge_of_form 1 20)" "$(gauge_of_form 5 320)"
refused_form "form 1, SI above 2 * S0" "$(gauge_of_form 1 21)"
saved_as "form 1, S0 0" "$(gauge_of_form 1 0 0)" "$(gauge_of_form 5 0 0)"
refused_form "form 1, S0 0, SI above it" "$(gauge_of_form 1 1 0)"
saved_as "form 1, SI twice the greatest S0" "$(gauge_of_form 1 1020 255)" "$(gauge_of_form 5 16320 255)"
refused_form "form 1, SI above that" "$(gauge_of_form 1 1021 255)"
for form in 2 3 4 5; do
    saved_as "form $form, SI 32 * S0" "$(gauge_of_form "$form" 320)" "$(gauge_of_form 5 320)"
    refused_form "form $form, SI above 32 * S0" "$(gauge_of_form "$form" 321)"
done

# 16 * 4096 is 65536, and 16 * 4116 is 65536 + 320: what is left of them in two bytes, 0 and 320, would be accepted.
refused_form "form 1, SI 4096" "$(gauge_of_form 1 4096)"
refused_form "form 1, SI 4116" "$(gauge_of_form 1 4116)"
refused_form "form 1, SI 65535" "$(gauge_of_form 1 65535)"

# Every count that the bytes hold is one, two of them in forms 3 and 4, four in form 5, and it is carried over as that number. An estimate goes by it.
for form in 3 4 5; do
    for count in 0 1 255 256 421 422 65534 65535; do
        saved_as "form $form, $count rest windows" "$(gauge_of_form "$form" 160 5 "$count")" "$(gauge_of_form 5 160 5 "$count")"
    done
done
for count in 65536 506250 16777215 16777216 4294967294 4294967295; do
    saved_as "form 5, $count rest windows" "$(gauge_of_form 5 160 5 "$count")" "$(gauge_of_form 5 160 5 "$count")"
done
# estimate_on LINE: the number of an estimate on the gauge that the line loads.
estimate_on() {
    printf '%s\nestimate 3700\n' "$1" >form.txt
    run form.txt
    rows | tail -n 1 | awk '{ print $2 }'
}
for form in 3 4 5; do
    expect "form $form, 421 rest windows: no estimate" 15 "$(estimate_on "$(gauge_of_form "$form" 160 5 421)")"
    expect "form $form, 422 rest windows: an estimate" 0 "$(estimate_on "$(gauge_of_form "$form" 160 5 422)")"
    expect "form $form, 65535 rest windows: an estimate" 0 "$(estimate_on "$(gauge_of_form "$form" 160 5 65535)")"
done
# 65536, 65957 and 16777216 have a number below 422 in their lower bytes, or none.
for count in 65536 65957 16777216 4294967295; do
    expect "form 5, $count rest windows: an estimate" 0 "$(estimate_on "$(gauge_of_form 5 160 5 "$count")")"
done
expect "form 2: no rest window is counted" 15 "$(estimate_on "$(gauge_of_form 2 160)")"
expect "form 1: no rest window is counted" 15 "$(estimate_on "$(gauge_of_form 1 10)")"

# cycles_on LINE: CYCT of the gauge that the line loads, and after a window whose discharge is a count and more.
cycles_on() {
    printf '%s\n-800 3600 1192\n' "$1" >form.txt
    run --all form.txt
    registers | awk '{ printf "%s%s", (NR > 1 ? " " : ""), $18 }'
}

# Every CYCT that two bytes hold is one. The drain is below 65,535 counts, whatever LMD is: 1024 counts of it are a cycle with the next window.
counts_65535=$((65535 * 135000000))
for form in 4 5; do
    for count in 0 1 256 65535; do
        saved_as "form $form, CYCT $count" "$(gauge_of_form "$form" 160 5 0 "$count")" "$(gauge_of_form 5 160 5 0 "$count")"
        expect "form $form, CYCT $count: it is shown" "$count $count" "$(cycles_on "$(gauge_of_form "$form" 160 5 0 "$count")")"
    done
    for drain in 1 $((1023 * 135000000)) $((1024 * 135000000)) $((counts_65535 - 1)); do
        saved_as "form $form, a drain of $drain grains" "$(gauge_of_form "$form" 160 5 0 9 "$drain")" "$(gauge_of_form 5 160 5 0 9 "$drain")"
    done
    saved_as "form $form, count, CYCT and drain" "$(gauge_of_form "$form" 160 5 65535 268 110000000000)" "$(gauge_of_form 5 160 5 65535 268 110000000000)"
    expect "form $form: a drain of 1022 counts" "9 9" "$(cycles_on "$(gauge_of_form "$form" 160 5 0 9 $((1022 * 135000000)))")"
    expect "form $form: a drain of 1023 counts" "9 10" "$(cycles_on "$(gauge_of_form "$form" 160 5 0 9 $((1023 * 135000000)))")"
    expect "form $form: a drain of nearly 64 LMD" "9 73" "$(cycles_on "$(gauge_of_form "$form" 160 5 0 9 $((counts_65535 - 1)))")"
    for drain in "$counts_65535" $((counts_65535 + 1)) $((1 << 62)) $((1 << 63)) -1; do
        refused_form "form $form, a drain of $drain grains" "$(gauge_of_form "$form" 160 5 0 9 "$drain")"
    done
done
for form in 1 2 3; do
    expect "form $form: no cycles" "0 0" "$(cycles_on "$(gauge_of_form "$form" 10)")"
done

# The first byte tells the form, which has its own length: 41 bytes the first two, 43 the third, 53 the fourth, 55 the fifth.
for form in 0 6 255; do
    for other in 2 3 4 5; do
        refused_form "form $form, which is none, in the bytes of form $other" \
            "$(gauge_of_form "$other" 160 | sed "s/load 0$other/load$(number_bytes "$form" 1)/")"
    done
done
for form in 1 2 3 4 5; do
    refused_form "form $form with a byte less" "$(gauge_of_form "$form" 10 | sed 's/ ..$//')"
    refused_form "form $form with a byte more" "$(gauge_of_form "$form" 10) 00"
done
for form in 1 2 3 4 5; do
    for other in 1 2 3 4 5; do
        [ "$form" != "$other" ] || continue
        case $form$other in
        12 | 21) continue ;; # they have one length, and SI 10 is right in both
        esac
        refused_form "form $form in the bytes of form $other" "$(gauge_of_form "$other" 10 | sed "s/load 0$other/load 0$form/")"
    done
done

# A form 1 gauge with SI 5 goes on by the rule of form 2: 16 * 5 = 80, then floor(15 * 80 / 16) + 12 = 87, 81 + 12 = 93, 87 + 12 = 99, which show
# 6, 6 and 7. NAC is 511 in all three; STTE is 60 * 511 / 6 = 5110 twice, then 60 * 511 / 7 = 4380. In whole units SI would stay: floor(87 / 16) = 5.
{
    gauge_of_form 1 5
    printf -- '-12 3700 1192\n%.0s' 1 2 3
} >form.txt
run --all form.txt
expect "form 1 on a standby load: NAC, SI, STTE" "512 5 6144
511 6 5110
511 6 5110
511 7 4380" "$(registers | awk '{ print $1, $15, $16 }')"
