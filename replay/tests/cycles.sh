# shellcheck shell=bash disable=SC2154 # what check sets
# Cycles (request A5): a window adds its counted discharge to a drain, and CYCT rises by one for each whole LMD in it, the LMD before the window. A count
# is 703.125 units for a window, so one of -28011 has 39.84 counts, and 25.7 of them are the 1024 counts of the bench pack.

# cycles_of LINE ..: CYCT in the row of each call after an opening.
cycles_of() {
    { printf 'open bench\n'; printf '%s\n' "$@"; } >cycles.txt
    run --all cycles.txt
    registers | awk 'NR > 1 { printf "%s%s", (NR > 2 ? " " : ""), $18 }'
}

# Counts of the drain: 995.9 after 25 windows, 1035.8 after 26, 2031.7 after 51 and 2071.6, two cycles, after 52. The gauge is empty all along: what is
# discharged below empty counts too.
cycles_of 'repeat 60' '-28011 3600 1192' 'end' >/dev/null
expect "CYCT: its windows" "26 52" "$(registers | awk 'NR > 1 && $18 != before { printf "%s%s", (before ? " " : ""), NR - 1 } { before = $18 }')"
expect "CYCT: below empty too" "0" "$(registers | awk '{ print $1 }' | sort -u)"
cycles_of 'done' 'repeat 30' '-28011 3600 1192' 'end' >/dev/null
expect "CYCT: from full too" "26" "$(registers | awk 'NR > 2 && $18 != before { print NR - 2 } { before = $18 }')"

# Several in one window, with the surplus carried over: 39.84, 79.68 and 119.51 counts with LMD 1. The greatest LMD has 1645.03 windows: 65,535 counts.
expect "CYCT: several in a window" "0 39 79 119" "$(cycles_of 'lmd 1' '-28011 3600 1192' '-28011 3600 1192' '-28011 3600 1192')"
cycles_of 'lmd 65535' 'repeat 1650' '-28011 3600 1192' 'end' >/dev/null
expect "CYCT: the greatest LMD" "1646" "$(registers | awk 'NR > 2 && $18 != before { print NR - 2 } { before = $18 }')"

# A smaller LMD has whole ones in the drain of before: 39.84 counts are 3 of 10, and what is left, 9.84, is 9 of 1. They count with the next window, whatever
# its current; a rest counts nothing.
for window in '0 3700 1192' '-2 3700 1192' '2 3700 1192' '9 3700 1192'; do
    expect "CYCT: a smaller LMD, then $window" "0 0 3 3 12 12" "$(cycles_of '-28011 3600 1192' 'lmd 10' "$window" 'lmd 1' "$window" 'rest 1 1192')"
done
expect "CYCT: a rest counts nothing" "0 0 0 0 39" "$(cycles_of '-28011 3600 1192' 'lmd 1' 'rest 1 1192' 'rest 506250 1192' '0 3700 1192')"

# The window that teaches goes by the LMD before it: 24 windows are 956.1 counts, less than 1024; LMD becomes 1024 - 128 = 896, and the next window has a cycle.
cycles_of 'repeat 23' '-28011 3600 1192' 'end' 'done' '-28011 3000 1192' '0 3700 1192' >/dev/null
expect "CYCT: LMD before the window, in the one that teaches" "896 0
896 1" "$(registers | tail -n 2 | awk '{ print $2, $18 }')"

# drain_of LINE ..: the drain saved after these lines: the last eight bytes.
drain_of() {
    { printf 'open bench\n'; printf '%s\n' "$@"; } >drain.txt
    run --save drain.saved drain.txt
    sed 's/.*\(\( ..\)\{8\}\)$/\1/' drain.saved
}
expect "the drain: opened" "$(number_bytes 0 8)" "$(drain_of '# nothing')"
expect "the drain: of a window" "$(number_bytes $((3000 * 192000)) 8)" "$(drain_of '-3000 3600 1192')"
expect "the drain: the least current" "$(number_bytes $((3 * 192000)) 8)" "$(drain_of '-3 3600 1192')"
expect "the drain: what is over a cycle" "$(number_bytes $((26 * 28011 * 192000 - 1024 * 135000000)) 8)" "$(drain_of 'repeat 26' '-28011 3600 1192' 'end')"
# What is not counted, a charge, a rest with its leak, settings, looks and refused calls add nothing.
for line in '-2 3600 1192' '28011 3700 1192' 'rest 506250 1372' 'nac 5' 'done' 'lmd 900' 'write 1 0x3B' 'write 2 7' 'read 0 128' 'preview reset' 'preview lmd 1' \
    'estimate 3700' '-28012 3600 1192' '-3000 2599 1192' '-3000 3600 1373' 'rest 0 1192' 'lmd 0' 'load 05' 'open 04'; do
    expect "the drain: after $line" "$(number_bytes $((3000 * 192000)) 8)" "$(drain_of 'done' '-3000 3600 1192' "$line")"
done

# PRST keeps cycles and drain, FRST clears both, and so does an opening. 26 windows are a cycle and 11.8 counts, 51 are 2031.7 counts, 52 two cycles.
for line in partial 'write 1 8
write 0 0xA9'; do
    expect "$line keeps CYCT and drain" "1 1 2" "$(cycles_of 'repeat 26' '-28011 3600 1192' 'end' "$line" 'repeat 25' '-28011 3600 1192' 'end' '-28011 3600 1192' |
        awk '{ print $26, $27, $NF }')"
done
for line in reset 'open bench' 'write 1 2
write 0 0xA9'; do
    expect "$line clears CYCT and drain" "1 0 0 1" "$(cycles_of 'repeat 51' '-28011 3600 1192' 'end' "$line" 'repeat 26' '-28011 3600 1192' 'end' |
        awk '{ print $51, $(NF - 26), $(NF - 1), $NF }')"
    expect "$line clears the drain" "$(number_bytes 0 8)" "$(drain_of '-3000 3600 1192' "$line")"
done
expect "PRST keeps the drain" "$(number_bytes $((3000 * 192000)) 8)" "$(drain_of '-3000 3600 1192' partial)"
# A preview of the two shows it, and the gauge keeps what it has.
cycles_of 'lmd 1' '-28011 3600 1192' 'preview partial' 'preview reset' >/dev/null
expect "previews of resets: CYCT" "39 0" "$(would_be | awk '{ printf "%s%s", (NR > 1 ? " " : ""), $18 }')"
expect "previews of resets: the gauge keeps CYCT" "39 39 39" "$(registers | tail -n 3 | awk '{ printf "%s%s", (NR > 1 ? " " : ""), $18 }')"

# It stops at 65,535: 1645 windows are 65,533.1 counts with LMD 1, 1646 are 65,572.9. Whole ones leave the drain all the same.
lines=('lmd 1' 'repeat 1648' '-28011 3600 1192' 'end')
cycles_of "${lines[@]}" >/dev/null
expect "CYCT stops" "65533 65535 65535 65535" "$(registers | tail -n 4 | awk '{ printf "%s%s", (NR > 1 ? " " : ""), $18 }')"
expect "CYCT stopped: the drain" "$(number_bytes $((1648 * 28011 * 192000 % 135000000)) 8)" "$(drain_of "${lines[@]}")"
expect "CYCT stopped: it goes on another day" "65535" "$(run --all drain.saved - <<<'-28011 3600 1192'; registers | tail -n 1 | awk '{ print $18 }')"
expect "CYCT stopped: FRST" "0" "$(run --all drain.saved - <<<'reset'; registers | tail -n 1 | awk '{ print $18 }')"

# CYCT is the pair at 0x2A, low byte first: 119 with LMD 1 after three windows, 560 is 30 02.
list pair.txt 'open bench\nlmd 1\nrepeat 3\n-28011 3600 1192\nend\nread 0x2A 2\nread 0x28 8\n'
run pair.txt
expect "CYCT: its pair" "# 0x2A: 77 00
# 0x28: 00 00 77 00 00 00 00 00" "$(grep '^# 0x' printed)"

# The aged compensation. gauge_aged ID3 PKCFG DCOMP TCOMP CYCT: a load line, the bench pack with these bytes, full after so many cycles, without a run.
gauge_aged() {
    printf 'load 05 04 5E 77 05 21 10 %s %s %s %s' "$2" "$1" "$3" "$4"
    number_bytes $((1024 * 135000000)) 8
    number_bytes 0 8
    for pair in 1024 160 0 0 0 0; do number_bytes "$pair" 2; done
    printf ' 44 10'
    number_bytes 0 4
    number_bytes "$5" 2
    number_bytes 0 8
    echo
}

# aged PKCFG DCOMP TCOMP DCGN DCOFF TCGN TOFF: on every ID3, CYCT, current and temperature below, CAC, FCAC, TTE and ARTTE, with an AR of 1000, are those of the
# request: D = ceiling of (I * DCGN * (32 + TCGN * floor(CYCT / 16) * GAF) * (128 + TCGN * dt) - 131072 * DCGN * DCOFF * ILMD) / 2^20, at least 0.
aged() {
    local id3 cycles current temperature
    for id3 in 00 01 02 03 FC FF; do
        for cycles in 0 15 16 31 160 65535; do
            gauge_aged "$id3" "$1" "$2" "$3" "$cycles"
            printf 'write 2 0xE8\nwrite 3 3\n'
            for temperature in 1012 1111 1112 1192; do
                for current in 3 560 2800 28011; do
                    echo "-$current 3600 $temperature # 0x$id3"
                done
                echo 'done'
            done
        done
    done >aged.txt
    run --all aged.txt
    expect "aged, DCOMP $2, TCOMP $3, PKCFG $1: accepted" "none refused" "$(tail -n 1 printed | sed 's/.*, //')"
    expect "aged, DCOMP $2, TCOMP $3, PKCFG $1: CAC, TTE, ARTTE, FCAC of 576 windows" "576 as worked out" "$(
        sed -n 's/.*# 0x//p' aged.txt | paste - <(rows | grep ' window ') |
            awk -v dcgn="$4" -v dcoff="$5" -v tcgn="$6" -v toff="$7" '
                function digit(text) { return index("0123456789ABCDEF", text) - 1 }
                function d(i, cold) {
                    cold = 4 * (273 + toff) - temp
                    if (cold < 0) cold = 0
                    x = i * dcgn * (32 + tcgn * int(cyct / 16) * gaf) * (128 + tcgn * cold) - 131072 * dcgn * dcoff * 4
                    return x <= 0 ? 0 : int((x + 1048575) / 1048576)
                }
                function left(counts) { return counts > 0 ? counts : 0 }
                {
                    gaf = digit(substr($1, 2)) % 4
                    nac = $4; lmd = $5; cac = $8; tte = $9; artte = $12; temp = $13; fcac = $15; iav = $16; cyct = $21
                    own = left(nac - d(iav)) " " int(60 * left(nac - d(iav)) / iav) " " int(60 * left(nac - d(1000)) / 1000) " " left(lmd - d(iav))
                    if (own == cac " " tte " " artte " " fcac) as_worked_out++
                    else print own, "and not", cac, tte, artte, fcac, "in", $0
                }
                END { print as_worked_out " as worked out" }'
    )"
}
# The bench pack; a greater TCGN without an offset; the greatest of all; the bench pack by bit 1 of PKCFG, which ages too.
aged 00 6C 15 13 4 2 5
aged 00 68 25 13 0 4 5
aged 00 F8 FF 31 0 31 7
aged 02 00 15 13 4 2 5

# By hand, the bench pack on 560 units at 1192: 560 * 13 * 32 * 128 / 2^20 = 28.4 less 26 are 3 counts; after 560 cycles and with GAF 3 560 * 13 * (32 + 2 * 35 * 3)
# * 128 / 2^20 = 215.1 less 26 are 190. NAC is 1023: TTE floor(60 * 1020 / 560) = 109, and floor(60 * 833 / 560) = 89. With GAF 0 560 cycles change nothing.
by_hand() { # ID3 CYCT: NAC CAC TTE
    { gauge_aged "$1" 00 6C 15 "$2"; echo '-560 3600 1192'; } >aged.txt
    run aged.txt
    rows | tail -n 1 | awk '{ print $3, $7, $8 }'
}
expect "a new cell, by hand" "1023 1020 109" "$(by_hand 03 0)"
expect "an old cell, by hand" "1023 833 89" "$(by_hand 03 560)"
expect "an old cell with GAF 0, by hand" "1023 1020 109" "$(by_hand 00 560)"
# The cycle that a window counts is in the registers after it: the 16th makes the first step of age, 560 * 13 * 38 * 128 / 2^20 = 33.8 less 26 are 8 counts.
{
    gauge_aged 03 00 6C 15 15 | sed "s/\( ..\)\{8\}\$/$(number_bytes $((1024 * 135000000 - 1)) 8)/"
    printf -- '-560 3600 1192\n-560 3600 1192\n'
} >aged.txt
run --all aged.txt
expect "the cycle of a window ages its registers" "15 1024
16 1015
16 1014" "$(registers | awk '{ print $18, $5 }')"
