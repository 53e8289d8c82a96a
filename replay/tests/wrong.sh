# shellcheck shell=bash disable=SC2154 # what check sets
# Wrong lists. Each is run alone, as the second of two, and on standard input; each time the messages have to be the expected ones, with the right
# name and line, the status 2, and nothing may be printed or saved.

words='expected open, load, window, rest, write, read, preview, estimate, nac, lmd, done, reset, partial, repeat, end or three numbers'
previews='expected a key, decimal or with 0x, nac, lmd, done, reset or partial'
int32='expected a whole number from -2147483648 to 2147483647, decimal'
uint32='expected a whole number from 0 to 4294967295, decimal'
uint16='expected a whole number from 0 to 65535, decimal'
rounds='expected a whole number from 1 to 10000, decimal'

# refused_list TITLE MESSAGES ARGUMENTS: one test.
refused_list() {
    local title=$1 messages=$2
    shift 2
    rm -f wrong.saved
    run --save wrong.saved "$@"
    expect "$title" "$messages"$'\nreplay: nothing applied\nstatus 2, nothing printed, nothing saved' \
        "$(cat messages)
status $status, $([ -s printed ] && echo something || echo nothing) printed, $([ -e wrong.saved ] && echo something || echo nothing) saved"
}

# wrong TEXT MESSAGE ..: each message begins with its line's number.
wrong() {
    local text=$1 messages message
    shift
    list wrong.txt "$text"
    list first.txt '# no call\n'
    messages=$(for message in "$@"; do echo "replay: wrong.txt:$message"; done)
    refused_list "wrong list $text" "$messages" wrong.txt
    refused_list "wrong second list $text" "$messages" first.txt wrong.txt
    refused_list "wrong standard input $text" "${messages//wrong.txt/standard input}" - <wrong.txt
}

# Words.
wrong 'open bench\nwindw 1 2 3\n' "2: unknown word 'windw'; $words"
wrong 'open bench\nWindow 1 2 3\n' "2: unknown word 'Window'; $words"
wrong 'open bench\n+1 3700 1192' "2: unknown word '+1'; $words"
wrong 'open bench\nc v\n' "2: unknown word 'c'; $words"
wrong 'c v t now\n' "1: unknown word 'c'; $words"
wrong 'open bench\n\033[1m\0177\0303\n' "2: unknown word '\\x1B[1m\\x7F\\xC3'; $words"
wrong "open bench\n$(printf '%050d' 0 | tr 0 x)\n" "2: unknown word '$(printf '%040d' 0 | tr 0 x)..'; $words"
wrong 'open bench\npreview window 2 3700 1192\n' "2: preview of 'window'; $previews"
wrong 'open bench\npreview preview done\n' "2: preview of 'preview'; $previews"
wrong 'open bench\npreview estimate 3700\n' "2: preview of 'estimate'; $previews"
wrong 'open bench\npreview repeat 3\n' "2: preview of 'repeat'; $previews"
wrong 'open bench\npreview end\n' "2: preview of 'end'; $previews"
wrong 'open bench\npreview A9\n' "2: preview of 'A9'; $previews"
wrong 'open bench\npreview # nothing\n' "2: preview of ''; $previews"
wrong '\nc v t\n2 3700 1192\n' '2: c v t after the first line; expected it only there'
wrong 'open bench\nc v t\n' '2: c v t after the first line; expected it only there'

# How many numbers.
wrong 'open bench\nwindow 1 3700\n' '2: numbers for window: 2; expected 3'
wrong 'open bench\nwindow 1 3700 1192 0\n' '2: numbers for window: 4; expected 3'
wrong 'open bench\nwindow\n' '2: numbers for window: 0; expected 3'
wrong 'open bench\n1 3700\n' '2: numbers for window: 2; expected 3'
wrong 'open bench\n1 3700 1192 7 # four\n' '2: numbers for window: 4; expected 3'
wrong 'open bench\nrest 5\n' '2: numbers for rest: 1; expected 2'
wrong 'open bench\nrest 5 1192 1\n' '2: numbers for rest: 3; expected 2'
wrong 'open bench\nwrite 1\n' '2: numbers for write: 1; expected 2'
wrong 'open bench\nread 1 # 2\n' '2: numbers for read: 1; expected 2'
wrong 'open bench\nnac\n' '2: numbers for nac: 0; expected 1'
wrong 'open bench\nlmd 1 2\n' '2: numbers for lmd: 2; expected 1'
wrong 'open bench\npreview 0xA9 1\n' '2: numbers for preview: 2; expected 1'
wrong 'open bench\npreview nac\n' '2: numbers for preview nac: 0; expected 1'
wrong 'open bench\npreview done 0xA9\n' '2: numbers for preview done: 1; expected 0'
wrong 'open bench\nestimate\n' '2: numbers for estimate: 0; expected 1'
wrong 'open bench\nestimate 3700 1192\n' '2: numbers for estimate: 2; expected 1'
wrong 'open bench\ndone 1\n' '2: numbers for done: 1; expected 0'
wrong 'open bench\nreset now\n' '2: numbers for reset: 1; expected 0'
wrong 'open bench\npartial 0\n' '2: numbers for partial: 1; expected 0'
wrong 'open bench\nrepeat\nend\n' '2: numbers for repeat: 0; expected 1'
wrong 'open bench\nrepeat 2 3\nend\n' '2: numbers for repeat: 2; expected 1'
wrong 'open bench\nrepeat 2\nend 2\n' '3: numbers for end: 1; expected 0'

# What is no number, or none of the C type.
wrong 'open bench\nwindow 1.5 3700 1192\n' "2: C of window is '1.5'; $int32"
wrong 'open bench\nwindow 1 0x10 1192\n' "2: V of window is '0x10'; $int32"
wrong 'open bench\n1 3700 -\n' "2: T of window is '-'; $int32"
wrong 'open bench\n1 3700 --2\n' "2: T of window is '--2'; $int32"
wrong 'open bench\n1 3700 1192,\n' "2: T of window is '1192,'; $int32"
wrong 'open bench\n2147483648 3700 1192\n' "2: C of window is '2147483648'; $int32"
wrong 'open bench\n1 -2147483649 1192\n' "2: V of window is '-2147483649'; $int32"
wrong 'open bench\n1 3700 18446744073709551616\n' "2: T of window is '18446744073709551616'; $int32"
wrong 'open bench\nrest -1 1192\n' "2: N of rest is '-1'; $uint32"
wrong 'open bench\nrest -0 1192\n' "2: N of rest is '-0'; $uint32"
wrong 'open bench\nrest 4294967296 1192\n' "2: N of rest is '4294967296'; $uint32"
wrong 'open bench\nrest 0x10 1192\n' "2: N of rest is '0x10'; $uint32"
wrong 'open bench\nrest 1 warm\n' "2: T of rest is 'warm'; $int32"
wrong 'open bench\nwrite 0x100000000 1\n' "2: ADDRESS of write is '0x100000000'; $uint32 or with 0x"
wrong 'open bench\nwrite 0x 1\n' "2: ADDRESS of write is '0x'; $uint32 or with 0x"
wrong 'open bench\nwrite 0X1 1\n' "2: ADDRESS of write is '0X1'; $uint32 or with 0x"
wrong 'open bench\nwrite 1 256\n' "2: BYTE of write is '256'; expected a whole number from 0 to 255, decimal or with 0x"
wrong 'open bench\nwrite 1 A9\n' "2: BYTE of write is 'A9'; expected a whole number from 0 to 255, decimal or with 0x"
wrong 'open bench\npreview 256\n' "2: KEY of preview is '256'; expected a whole number from 0 to 255, decimal or with 0x"
wrong 'open bench\npreview -1\n' "2: KEY of preview is '-1'; expected a whole number from 0 to 255, decimal or with 0x"
wrong 'open bench\npreview lmd 0x10\n' "2: N of preview lmd is '0x10'; $uint16"
wrong 'open bench\nestimate 3.7\n' "2: VOLTAGE of estimate is '3.7'; $int32"
wrong 'open bench\nestimate 0xE74\n' "2: VOLTAGE of estimate is '0xE74'; $int32"
wrong 'open bench\nestimate 2147483648\n' "2: VOLTAGE of estimate is '2147483648'; $int32"
wrong 'open bench\nread -1 1\n' "2: ADDRESS of read is '-1'; $uint32 or with 0x"
wrong 'open bench\nread 0 4294967296\n' "2: COUNT of read is '4294967296'; $uint32 or with 0x"
wrong 'open bench\nnac 65536\n' "2: N of nac is '65536'; $uint16"
wrong 'open bench\nlmd -1\n' "2: N of lmd is '-1'; $uint16"
wrong 'open bench\nlmd 0x10\n' "2: N of lmd is '0x10'; $uint16"
wrong 'open bench\nrepeat 0\nend\n' "2: N of repeat is '0'; $rounds"
wrong 'open bench\nrepeat 10001\nend\n' "2: N of repeat is '10001'; $rounds"
wrong 'open bench\nrepeat -1\nend\n' "2: N of repeat is '-1'; $rounds"
wrong 'open bench\nrepeat 0x10\nend\n' "2: N of repeat is '0x10'; $rounds"
wrong 'open bench\nrepeat 18446744073709551617\nend\n' "2: N of repeat is '18446744073709551617'; $rounds"

# Repeats that do not end, ends without one, and more than two in each other. Each mistake is reported once.
wrong 'open bench\nend\n' '2: end without repeat; expected repeat before it'
wrong 'open bench\nrepeat 2\ndone\nend\nend\n' '5: end without repeat; expected repeat before it'
wrong 'open bench\nrepeat 2\ndone\n' '3: the list ends in the repeat of line 2; expected end before that'
wrong 'open bench\nrepeat 2\nrepeat 3\ndone\nend\n# last' '6: the list ends in the repeat of line 2; expected end before that'
wrong 'open bench\nrepeat 2\nrepeat 3\ndone' '4: the list ends in the repeat of line 3; expected end before that'
wrong 'open bench\nrepeat 2\nrepeat 2\nrepeat 2\ndone\nend\nend\nend\n' '4: repeat inside 2 others; expected at most one around it'
wrong 'open bench\nrepeat 0\nrepeat 2\nrepeat 2\nend\n' "2: N of repeat is '0'; $rounds" \
    '4: repeat inside 2 others; expected at most one around it' '5: the list ends in the repeat of line 3; expected end before that'
wrong 'open bench\nrepeat 2\nwindw 1 2 3\nend\n' "3: unknown word 'windw'; $words"
list first.txt 'open bench\nrepeat 2\n'
list wrong.txt 'done\nend\n'
refused_list "a repeat that ends in another list" "replay: first.txt:2: the list ends in the repeat of line 2; expected end before that
replay: wrong.txt:2: end without repeat; expected repeat before it" first.txt wrong.txt

# Bytes.
wrong 'open\n' '1: open without bytes; expected them in hexadecimal, or bench'
wrong 'load # none\n' '1: load without bytes; expected them in hexadecimal'
wrong 'open 04 5\n' "1: '5' has an odd number of digits; expected two for each byte"
wrong 'open 045E7\n' "1: '045E7' has an odd number of digits; expected two for each byte"
wrong 'load 01 4 5E\n' "1: '4' has an odd number of digits; expected two for each byte"
wrong 'open 04 5G\n' "1: '5G' is not hexadecimal; expected two digits for each byte"
wrong 'open 0x04\n' "1: '0x04' is not hexadecimal; expected two digits for each byte"
wrong 'open bench 04\n' "1: 'bench' is not hexadecimal; expected two digits for each byte"
wrong 'load bench\n' "1: 'bench' is not hexadecimal; expected two digits for each byte"

# A call before any open.
before='before any open; expected open, load or c v t before it'
wrong '2 3700 1192\n' "1: window $before"
wrong '# first\nwindow 2 3700 1192\nrest 1 1192\nwrite 1 1\nread 1 1\nnac 1\nlmd 1\ndone\nreset\npartial\npreview 1\nopen bench\n' \
    "2: window $before" "3: rest $before" "4: write $before" "5: read $before" "6: nac $before" "7: lmd $before" "8: done $before" \
    "9: reset $before" "10: partial $before" "11: preview $before"
wrong 'preview nac 1\nopen bench\n' "1: preview nac $before"
wrong 'estimate 3700\nopen bench\n' "1: estimate $before"
wrong 'repeat 2\ndone\nend\nopen bench\n' "2: done $before"

# Bytes that are no text of lines.
crlf="ends in CR LF; expected LF alone, as by tr -d '\\r'"
wrong 'open bench\r\n2 3700 1192\n' "1: $crlf" "2: window $before"
wrong 'open bench\n\r\n# comment\r\n' "2: $crlf" "3: $crlf"
wrong 'open bench\ndone\r' "2: unknown word 'done\\x0D'; $words"
wrong 'open bench\n2 3700 1192 # a \0000 byte\n' '2: has a byte 0; expected text'
wrong '\0000' '1: has a byte 0; expected text'
wrong "open bench\n# $(printf '%0999d' 0)\n" '2: 1001 bytes long; expected at most 1000'
wrong "open bench\n$(printf '%05000d' 0)" '2: 5000 bytes long; expected at most 1000'

# Bad lines are reported in their order, the first ten in full; right lines between them do not count.
number='expected 3'
wrong 'open bench\n1\n2\n3\n4\n5\n# right\n6\n7\n8\n9\n10' "2: numbers for window: 1; $number" \
    "3: numbers for window: 1; $number" "4: numbers for window: 1; $number" "5: numbers for window: 1; $number" \
    "6: numbers for window: 1; $number" "8: numbers for window: 1; $number" "9: numbers for window: 1; $number" \
    "10: numbers for window: 1; $number" "11: numbers for window: 1; $number" "12: numbers for window: 1; $number"
list many.txt "$(printf '%s\\n' done{,,,,,,,,,,,,})"
list first.txt '1\n'
run first.txt many.txt
expect "more than ten bad lines: status, and nothing printed" "2" "$status$(cat printed)"
expect "more than ten bad lines" "replay: first.txt:1: numbers for window: 1; expected 3
$(for line in 1 2 3 4 5 6 7 8 9; do echo "replay: many.txt:$line: done $before"; done)
replay: 4 more bad lines
replay: nothing applied" "$(cat messages)"

# A file that --save names is left as it is.
list kept.saved 'kept\n'
list wrong.txt 'open bench\nwindow\n'
run --save kept.saved wrong.txt
expect "a wrong list leaves the file of --save" "2 kept" "$status $(cat kept.saved)"
