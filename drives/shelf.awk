# What shelf.gp draws beside the tables of estimate.sh, from the true charges that drives/make has for a list and from the table that `replay --all`
# prints for it. The shelf is the longest stretch of rests; reads, previews, estimates and refused calls do not end a stretch. To the folder go:
# `cell`, after each window and each rest the hour and the true charge; `temperatures`, of each rest on the shelf its first hour, its last and the
# degrees Celsius; and `shelf-marks`, what gnuplot needs beside them as its variables:
# - `shelf_from`, `shelf_to`: the hours;
# - `found_voltage`, `found_counts`, `found_nac`, `found_rsoc`, `found_lmd`: the first estimate at its end, and the registers there; `found_true`;
# - `tte`: the first TTE after it; `taught_hour`, `taught_nac`, `taught_lmd`: where a window after it changes LMD, NAC before, LMD then; -1 if none does.

function hour(windows) {
    return windows * 5.12 / 3600
}

# A refused window or rest has a true charge too, and takes no time in the table.
function cell() {
    charge = truth[++charges]
    printf "%.6f %s\n", hour(now), charge >(folder "/cell")
}

function rest(windows, t) {
    first[++rests] = now
    last[rests] = now += windows
    celsius[rests] = t / 4 - 273
    asked = ""
}

# Of the first estimate after a rest.
function estimate(voltage, counts) {
    if (rests == 0 || asked != "") return
    asked = sprintf("found_voltage = %d\nfound_counts = %d\nfound_nac = %d\n", voltage, counts, nac)
    asked = asked sprintf("found_rsoc = %d\nfound_lmd = %d\nfound_true = %.1f\n", rsoc, lmd, charge)
}

function stretch_ends(at) {
    if (rests > 0 && last[rests] - first[1] > longest) {
        longest = last[rests] - first[1]
        found = asked
        shelf = sprintf("shelf_from = %.6f\nshelf_to = %.6f\n", hour(first[1]), hour(last[rests]))
        temperatures = ""
        for (at = 1; at <= rests; at++) temperatures = temperatures sprintf("%.6f %.6f %g\n", hour(first[at]), hour(last[at]), celsius[at])
        tte = taught_hour = taught_nac = taught_lmd = -1
    }
    rests = 0
}

function window() {
    now++
    if (tte < 0 && $at["TTE"] != 65535) tte = $at["TTE"]
    if (taught_hour < 0 && $at["LMD"] != lmd) {
        taught_hour = hour(now)
        taught_nac = nac
        taught_lmd = $at["LMD"]
    }
}

NR == FNR { truth[++known] = $1; next }
FNR == 1 {
    for (i = 1; i <= NF; i++) at[$i] = i
    call = at["call"]
    next
}
/^# *estimate / { estimate(voltage, $3) }
/^#/ { next }

$at["number"] == 0 {
    if ($call == "rest") rest($(call + 1), $(call + 2))
    else if ($call == "estimate") voltage = $(call + 1)
    else if ($call != "read" && $call != "preview") stretch_ends()
    if ($call == "window") window()
    nac = $at["NAC"]
    lmd = $at["LMD"]
    rsoc = $at["RSOC"]
}
$call == "window" || $call == "rest" { cell() }

END {
    stretch_ends()
    if (charges != known) failure = charges " windows and rests, but " known " true charges"
    if (found == "" || tte < 0) failure = "compare-shelf takes a list with an estimate at the end of its longest rest and work after that"
    if (failure != "") {
        print "drives: " failure >"/dev/stderr"
        exit 1
    }
    printf "%s", temperatures >(folder "/temperatures")
    printf "%s%stte = %d\n", shelf, found, tte >(folder "/shelf-marks")
    printf "taught_hour = %.6f\ntaught_nac = %d\ntaught_lmd = %d\n", taught_hour, taught_nac, taught_lmd >(folder "/shelf-marks")
}
