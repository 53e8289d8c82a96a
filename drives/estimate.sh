# shellcheck shell=bash disable=SC2154 # what tables.sh sets
# For compare-estimate, compare-shelf and check, which read this file after tables.sh: the tables of the picture of an estimate.

# asked_table FOLDER: the stored table, asked of the gauge at every voltage: an empty one with LMD 1000, whose estimate is the permille. In
# FOLDER/estimates the voltage is the second number of a line and the permille the third.
asked_table() {
    mkdir -p "$1"
    { printf 'open bench\nlmd 1000\nrest 422 1192\n'; seq -f 'estimate %g' 3000 4200; } >"$1/asked.txt"
    tables "$1" "$1/asked.txt"
}

# without_settings TABLE: the calls that replay printed, as a list, without the settings by an estimate: a `nac` with the counts that the estimate
# before it gave, where no other call moves the gauge between the two.
without_settings() {
    awk 'NR == 1 { for (i = 1; i <= NF; i++) if ($i == "call") call = i; next }
        $1 == "#" && $2 == "estimate" { given = $3 }
        /^#/ { next }
        $call == "nac" && $(call + 1) == given { next }
        $call != "estimate" && $call != "preview" && $call != "read" { given = "" }
        { line = $call; for (i = call + 1; i <= NF; i++) line = line " " $i; print line }' "$1"
}

# nac_before HOUR FOLDER: NAC in the last row before that hour.
nac_before() {
    awk -v hour="$1" '$1 + 0 >= hour { exit } NF { nac = $2 } END { print nac }' "$2/curves"
}

# dark_marks FOLDER HOUR: gnuplot's variables for where the handset goes dark after that hour. `dark_hour`: when, or -1; `dark_nac` and `dark_without`: NAC
# before that, with the settings and without.
dark_marks() {
    local dark
    dark=$(awk -v after="$2" '$1 > after { print $1; exit }' "$1/dark")
    echo "dark_hour = ${dark:--1}"
    [ -z "$dark" ] || printf 'dark_nac = %s\ndark_without = %s\n' "$(nac_before "$dark" "$1")" "$(nac_before "$dark" "$1/without")"
}

# estimate_marks FOLDER: what gnuplot needs beside the tables, as its variables. `settings`: how many were left out. `given`: how many estimates there
# are; if any, `first_hour` to `first_permille` of the first. Then those of dark_marks after it; without an estimate there is no such place.
estimate_marks() {
    local first
    echo "settings = $(($(grep -c '^[^#]' "$1/table") - $(grep -c '^[^#]' "$1/without/table")))"
    echo "given = $(wc -l <"$1/given")"
    awk 'NR == 1 {
        print "first_hour = " $1 "\nfirst_voltage = " $2
        print "first_counts = " $3 "\nfirst_nac = " ($3 - $4) "\nfirst_permille = " $5
    }' "$1/given"
    first=$(awk 'NR == 1 { print $1 }' "$1/given")
    if [ -n "$first" ]; then dark_marks "$1" "$first"; else echo "dark_hour = -1"; fi
}

# estimate_tables SCRIPT FOLDER LIST ..: all of them. FOLDER/given has hour, voltage, counts, distance and permille of each estimate.
estimate_tables() {
    local folder="$2"
    tables "${@:2}"
    every_call "$1" "$folder"
    asked_table "$folder/asked"
    without_settings "$folder/table" >"$folder/without.txt"
    tables "$folder/without" "$folder/without.txt"
    awk 'NR == FNR { permille[$2] = $3; next } { print $0, permille[$2] }' "$folder/asked/estimates" "$folder/estimates" >"$folder/given"
    estimate_marks "$folder" >"$folder/estimate-marks"
}
