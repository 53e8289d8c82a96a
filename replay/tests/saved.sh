# shellcheck shell=bash disable=SC2154 # what check sets
# --save, and going on from it.

# The saved form of the requests: form, ten configuration bytes, h and DCR of 8 bytes, LMD, SI, c, VOLT, TEMP, AR of 2, MODE, FLAGS, the count of
# rest windows of 4, CYCT of 2 and the cycle drain of 8. As opened, everything but form 5, LMD 1024, SI 16 * 10 = 160 sixteenths, MODE 0x44 and CI is 0.
opened="load 05 04 5E 77 05 21 10 00 00 6C 15 00 00 00 00 00 00 00 00 00 00 00 00 00 00 00 00 00 04 A0 00 00 00 00 00 00 00 00 00 44 10\
$(number_bytes 0 14)"
list opened.txt 'open bench\n'
run --save opened.saved opened.txt
expect "saved as opened" "$opened 0" "$(cat opened.saved) $status"

# After the request's three windows h is 137663991808 (a proved example of the request); DCR is what full lacks of it,
# 1024 * 135000000 - h. c is -3000 in two's complement. 3000 is no standby, so SI is as opened. The cycle drain is what was discharged, 3000 * 192000,
# without the leak, which DCR has too.
run --save windows.saved "$parts/bench-pack.txt"
expect "saved after the request's windows" "load 05 04 5E 77 05 21 10 00 00 6C 15$(
    number_bytes 137663991808 8
    number_bytes $((1024 * 135000000 - 137663991808)) 8
    for pair in 1024 160 $((65536 - 3000)) 3600 1192 0; do number_bytes "$pair" 2; done
) 40 14 00 00 00 00 00 00$(number_bytes $((3000 * 192000)) 8)" "$(cat windows.saved)"

# going_on TITLE FIRST SECOND: the first list with --save and then the saved bytes with the second end as both in one run.
going_on() {
    run --all --save day.saved "$2"
    expect "$1: the first list" 0 "$status"
    run --all --save parts.saved day.saved "$3"
    local parts_end
    parts_end=$(registers | tail -n 1)
    run --all --save whole.saved "$2" "$3"
    expect "$1: registers" "$(registers | tail -n 1)" "$parts_end"
    expect "$1: saved bytes" "$(cat whole.saved)" "$(cat parts.saved)"
}

going_on "monday and tuesday" "$root/replay/examples/monday.txt" "$root/replay/examples/tuesday.txt"
# In the middle of a run, whose drain so far has to be kept for the run to teach.
head -n 3000 "$root/drives/learning-run.txt" >first.txt
sed -n '3001,$p' "$root/drives/learning-run.txt" >second.txt
going_on "a learning run in two parts" first.txt second.txt
lmd_at_end() { # ARGUMENTS
    run "$@"
    rows | tail -n 1 | awk '{ print $4 }'
}
expect "a learning run in two parts: LMD is taught in the second" "1024 1" \
    "$(lmd_at_end first.txt) $(($(lmd_at_end day.saved second.txt) != 1024))"

# The file may be one of the lists: it is read before it is written.
cp day.saved same.saved
run --save same.saved same.saved second.txt
expect "saved to the file gone on from" "$(cat whole.saved) 0" "$(cat same.saved) $status"

# Refused calls, the last one too, do not keep the gauge from being saved.
list refused.txt 'open bench\n0 0 0\n'
run --save refused.saved refused.txt
expect "saved after a refused call" "$opened 0" "$(cat refused.saved) $status"

list none.txt 'load 01\n'
rm -f none.saved
run --save none.saved none.txt
expect "no gauge to save" "replay: none.saved: not written, there is no gauge to save
1 absent" "$(cat messages)
$status $([ -e none.saved ] && echo present || echo absent)"
list none.txt ''
run --save none.saved none.txt
expect "no calls, no gauge to save" "1 absent" "$status $([ -e none.saved ] && echo present || echo absent)"

# README.md shows what is printed for the two lists. Run from the root, as there, so that the list has the same name.
shown_in_readme() { # TITLE: of the file printed, the lines that README.md lacks
    expect "README.md: $1" "" "$(sed 's/^/    /' printed | grep -vxFf "$root/replay/README.md" || :)"
}
status=0
(cd "$root" && "$replay" --save "$work/monday.saved" replay/examples/monday.txt) >printed || status=$?
expect "README.md: monday.txt is run" "0 13" "$status $(wc -l <printed)"
shown_in_readme "the table of monday.txt"
run monday.saved "$root/replay/examples/tuesday.txt"
expect "README.md: tuesday.txt is run" "0 8" "$status $(wc -l <printed)"
shown_in_readme "the table of tuesday.txt"
cp "$root/replay/examples/monday.txt" printed
shown_in_readme "monday.txt"
