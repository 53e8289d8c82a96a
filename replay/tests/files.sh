# shellcheck shell=bash disable=SC2154 # what check sets
# Usage, and files that cannot be read or written.

usage='usage: replay [--all] [--save FILE] [LIST ..]'
list right.txt 'open bench\n'
for arguments in '--al right.txt' '-a right.txt' 'right.txt --save' '--save one.saved --save two.saved right.txt' '--help right.txt' '--' '--save=one.saved right.txt'; do
    # shellcheck disable=SC2086 # each word an argument
    run $arguments
    expect "usage: $arguments" "$usage 2" "$(cat messages) $status$(cat printed)"
done
run --help
expect "help" "$usage 0" "$(cat printed) $status$(cat messages)"
expect "bad usage saves nothing" "" "$(ls ./*one.saved ./*two.saved 2>/dev/null)"

run right.txt --all
expect "an option may follow the lists" "CYCT 0" "$(sed -n '1s/ call$//; 1s/.* //p' printed) $status"

run absent.txt
expect "no such list" "replay: absent.txt: cannot be read: No such file or directory
1" "$(cat messages)
$status$(cat printed)"
run --save absent.saved right.txt absent.txt
expect "no such second list" "1 absent" "$status $([ -s printed ] || [ -e absent.saved ] && echo present || echo absent)"
mkdir -p folder
run folder
expect "a folder as list" "replay: folder: cannot be read: Is a directory
1" "$(cat messages)
$status$(cat printed)"

run --save folder/absent/saved right.txt
expect "a file of --save that cannot be made" "replay: folder/absent/saved: cannot be written: No such file or directory
1" "$(cat messages)
$status"
expect "the table is printed all the same" "# 1 call, none refused" "$(tail -n 1 printed)"
run --save folder right.txt
expect "a folder for --save" "replay: folder: cannot be written: Is a directory
1" "$(cat messages)
$status"

if [ -c /dev/full ]; then
    run --save /dev/full right.txt
    full="$(cat messages) $status"
    status=0
    "$replay" right.txt >/dev/full 2>messages || status=$?
    full="$full
$(cat messages) $status"
else
    full="no /dev/full here"
fi
expect "no room to write" "replay: /dev/full: cannot be written: No space left on device 1
replay: standard output: cannot be written: No space left on device 1" "$full"
