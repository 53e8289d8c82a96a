# shellcheck shell=bash
# For the scripts of this folder, which read this file: from lists of calls to the tables that gnuplot draws, and to a picture.
drives="$(cd "$(dirname "${BASH_SOURCE[0]}")" && pwd)"
root="$(dirname "$drives")"

fail() {
    echo "drives: $*" >&2
    exit 1
}

usage() {
    echo "usage: drives/$*" >&2
    exit 2
}

# takes_lists NAME ARGUMENT ..: the arguments are lists and a picture, or the script ends. Without the ending the last one may be a list,
# which must not be written over.
takes_lists() {
    if [ $# -lt 3 ] || [[ "${*: -1}" != *.png ]]; then
        usage "$1 LIST .. OUT.png"
    fi
}

# takes_name SCRIPT DEFAULT ARGUMENT ..: the arguments are the name of a list, or none for the default, and a picture: they become name and out, or
# the script ends.
# shellcheck disable=SC2034 # for the scripts
takes_name() {
    if [ $# -lt 3 ] || [ $# -gt 4 ] || [[ "${*: -1}" != *.png ]]; then
        usage "$1 [NAME] OUT.png"
    fi
    name="$2" out="${*: -1}"
    [ $# -eq 3 ] || name="$3"
}

# A folder for the tables of one run, which goes when the script ends.
make_room() {
    room=$(mktemp -d)
    trap 'rm -rf "$room"' EXIT
}

# replayed FOLDER LIST ..: what replay prints for the lists, as FOLDER/table. A status of replay's other than 0 ends the script.
replayed() {
    mkdir -p "$1"
    "$root/target/replay/replay" --all "${@:2}" >"$1/table" || exit
}

# traced FOLDER [OPTION ..]: FOLDER/table is held to the second implementation, and the tables that gnuplot draws are made of it.
traced() {
    "$root/target/rust/release/trace" "${@:2}" "$1/table" "$1" || exit
}

# tables FOLDER LIST ..: both.
tables() {
    replayed "$@"
    traced "$1"
}

# every_call NAME FOLDER: FOLDER/table has a row for every call, or the script ends. Of a repeated part it has not.
every_call() {
    ! grep -q '^# repeat ' "$2/table" || fail "$1 follows every call, and a repeat of several lines has calls without a row"
}

# draw SCRIPT FOLDER OUT TITLE: the picture, from the tables in FOLDER. OUT is put in place last, so that a failure leaves it as it was.
draw() {
    gnuplot -c "$drives/$1" "$2" "$2/picture.png" "$4" || fail "gnuplot failed"
    mkdir -p "$(dirname "$3")"
    mv -fT "$2/picture.png" "$3"
    echo "drives: $3 is drawn"
}

# title_of LIST ..: the first list's name as a title, its file name without the ending, and how many there are beside it.
title_of() {
    local name
    name=$(basename -- "$1")
    [ "$name" != - ] || name="standard input"
    name=${name%.txt}
    name=${name//-/ }
    [ $# -eq 1 ] || name="$name and $(($# - 1)) more"
    echo "${name^}"
}
