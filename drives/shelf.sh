# shellcheck shell=bash disable=SC2154 # what tables.sh sets
# For compare-shelf and check, which read this file after estimate.sh: the tables of the picture of a shelf.

# shelf_tables FOLDER LIST TRUE: those of an estimate, and what shelf.awk makes of the list and of it without its settings, with the true charges.
shelf_tables() {
    local shelf_to
    estimate_tables compare-shelf "$1" "$2"
    awk -v folder="$1" -f "$drives/shelf.awk" "$3" "$1/table" || exit
    awk -v folder="$1/without" -f "$drives/shelf.awk" "$3" "$1/without/table" || exit
    shelf_to=$(sed -n 's/^shelf_to = //p' "$1/shelf-marks")
    dark_marks "$1" "$shelf_to" >>"$1/shelf-marks"
}
