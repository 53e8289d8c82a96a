# What ageing.gp draws, from the table that `replay --all` prints for lists with one repeat. To the folder go: `first` and `last`, of these two rounds
# after each call the hour since the round began, NAC, CAC and TTE, which is NaN where the gauge shows none; `cycles`, after each round its number and
# CYCT; and `ageing-marks`, what gnuplot needs beside them as its variables:
# - `rounds`: how many there are; `cycles_before` and `cycles_last`: CYCT before the first and before the last; `cycles_end`: after that;
# - `begin`: the hour of the list at which the first begins; `work_end`: the last hour of a round's call that is no rest;
# - `low_hour`, `low_nac`, `low_first`, `low_last`: the least NAC of the last round at which both rounds show a TTE, and these; -1 if there is none.
# Both rounds have the same calls. Of another repeat inside this one the rows are taken as they come.

function hours(time, part) {
    split(time, part, ":")
    return part[1] + part[2] / 60 + part[3] / 3600
}

function minutes(tte) {
    return tte == 65535 ? "NaN" : tte
}

# A round that has rows.
function row(name) {
    printf "%.6f %d %d %s\n", now - begin, $at["NAC"], $at["CAC"], minutes($at["TTE"]) >(folder "/" name)
    if ($call != "rest" && now - begin > work_end) work_end = now - begin
}

function least(tte) {
    if (tte == 65535 || shown[calls] == 65535 || (low_hour >= 0 && $at["NAC"] > low_nac)) return
    low_hour = now - begin
    low_nac = $at["NAC"]
    low_first = shown[calls]
    low_last = tte
}

function of_round() {
    calls++
    if (round == 1) shown[calls] = $at["TTE"]
    if (round == 1) row("first")
    if (round == rounds) row("last")
    if (round == rounds) least($at["TTE"])
}

function round_ends() {
    print $(call + 1), $at["CYCT"] >(folder "/cycles")
    begin = now
    calls = 0
    if ($(call + 1) == rounds - 1) cycles_last = $at["CYCT"]
    if ($(call + 1) == rounds) cycles_end = $at["CYCT"]
    round = $(call + 1) + 1
}

BEGIN { low_hour = low_nac = low_first = low_last = -1 }

NR == 1 {
    for (i = 1; i <= NF; i++) at[$i] = i
    call = at["call"]
    next
}

/^# repeat / {
    of[++deep] = $3
    if (deep == 1) {
        repeats++
        rounds = $3
        round = 1
        begin = first_begin = now + 0
        cycles_before = cycles + 0
    }
}
/^#/ { next }

{ now = hours($at["time"]); cycles = $at["CYCT"] }
deep == 0 { next }
$call != "round" || deep > 1 { of_round() }
$call == "round" && deep == 1 { round_ends() }
$call == "round" && $(call + 1) == of[deep] { deep-- }

END {
    if (repeats != 1 || rounds < 2 || work_end == 0) {
        found = repeats != 1 ? repeats + 0 " repeats" : rounds < 2 ? "one round" : "rounds without a window"
        print "drives: compare-ageing takes lists with one repeat, of two rounds or more with windows; these have " found >"/dev/stderr"
        exit 1
    }
    marks = folder "/ageing-marks"
    printf "rounds = %d\ncycles_before = %d\ncycles_last = %d\ncycles_end = %d\n", rounds, cycles_before, cycles_last, cycles_end >marks
    printf "begin = %.6f\nwork_end = %.6f\n", first_begin, work_end >marks
    printf "low_hour = %.6f\nlow_nac = %d\nlow_first = %d\nlow_last = %d\n", low_hour, low_nac, low_first, low_last >marks
}
