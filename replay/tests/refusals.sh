# shellcheck shell=bash disable=SC2154 # what check sets
# Each refusal shows with its number, leaves the registers and the time of the row before, and is counted with its place.
#
# 13 cannot be reached: a read and a preview have a reply of all registers, and the calls get the saved bytes in their right length.

# refusal NUMBER TEXT LINE ..: the last LINE is refused, those before it are not.
refusal() {
    local number=$1 text=$2 line
    shift 2
    printf 'open bench\n20 4150 1192\n-3000 3600 1192\n' >refusal.txt
    for line in "$@"; do echo "$line" >>refusal.txt; done
    run --all refusal.txt
    expect "refusal $number: numbers of the rows" "$(for ((i = 0; i < $# + 2; i++)); do echo 0; done; echo "$number")" \
        "$(rows | awk '{ print $2 }')"
    expect "refusal $number: registers kept" "$(registers | tail -n 2 | sed -n 1p)" "$(registers | tail -n 1)"
    expect "refusal $number: time kept" "$(rows | tail -n 2 | awk 'NR == 1 { print $1 }')" "$(rows | tail -n 1 | awk '{ print $1 }')"
    expect "refusal $number: summary, nothing handed out, and status" \
        "# $(($# + 3)) calls, 1 refused"$'\n'"# refused with $number ($text): 1, first refusal.txt:$(($# + 3)) 0" \
        "$(grep '^#' printed) $status"
}

refusal 1 'configuration of another length' 'open 04 5E 77 05 21 10 00 00 6C'
refusal 1 'configuration of another length' 'open 04 5E 77 05 21 10 00 00 6C 15 00'
refusal 2 'design capacity 0' 'open 00 5E 77 05 21 10 00 00 6C 15'
refusal 3 'current out of range' 'window 28012 3600 1192'
refusal 4 'voltage out of range' 'window -100 2599 1192'
refusal 5 'temperature out of range' 'window -100 3600 1373'
refusal 5 'temperature out of range' 'rest 1 1011'
refusal 6 'rest length out of range' 'rest 0 1192'
refusal 6 'rest length out of range' 'rest 506250 1192' 'rest 506251 1192'
refusal 6 'rest length out of range' 'rest 4294967295 1011'
refusal 7 'address not writable' 'write 0x04 1'
refusal 8 'no key of a command' 'write 0x00 0x57'
refusal 8 'no key of a command' 'preview 0x57'
refusal 9 'no command bit in MODE' 'write 0x01 0x44' 'write 0x00 0xA9'
refusal 9 'no command bit in MODE' 'preview 0xA9'
refusal 10 'command not carried by this key' 'write 0x01 0x01' 'write 0x00 0xA9'
refusal 10 'command not carried by this key' 'write 0x01 0x10' 'preview 0x56'
refusal 11 'WRTLMD with AR 0' 'write 0x01 0x01' 'write 0x00 0x56'
refusal 11 'WRTLMD with AR 0' 'write 0x01 0x01' 'preview 0x56'
refusal 11 'WRTLMD with AR 0' 'lmd 0'
refusal 11 'WRTLMD with AR 0' 'preview lmd 0'
refusal 12 'count 0, or registers past the last one' 'read 0x7F 2'
refusal 12 'count 0, or registers past the last one' 'read 0 0'
refusal 14 'saved bytes are no gauge' 'load 00'
refusal 14 'saved bytes are no gauge' \
    'load 00 04 5E 77 05 21 10 00 00 6C 15 00 00 00 00 00 00 00 00 00 00 00 00 00 00 00 00 00 04 0A 00 00 00 00 00 00 00 00 00 44 10'
refusal 15 'too few rest windows for an estimate' 'estimate 3700'
refusal 15 'too few rest windows for an estimate' 'rest 421 1192' 'estimate 2999'
refusal 16 'voltage outside the table' 'rest 422 1192' 'estimate 2999'
refusal 16 'voltage outside the table' 'rest 422 1192' 'estimate 4201'

# Without a gauge: no registers, and 14 for every call, until a call opens one.
list none.txt 'open 00 5E 77 05 21 10 00 00 6C 15\n2 3700 1192\nrest 1 1192\nwrite 2 1\nread 0 1\nnac 1\nlmd 1\ndone\nreset\npartial\npreview 1\npreview nac 1\npreview done\nestimate 3700\nload 01\nopen bench\n'
run none.txt
expect "no gauge: numbers" "2 14 14 14 14 14 14 14 14 14 14 14 14 14 14 0" "$(rows | awk '{ printf "%s%s", (NR > 1 ? " " : ""), $2 }')"
expect "no gauge: registers" "- - - - - -" "$(rows | sed '$d' | awk '{ print $3, $4, $5, $6, $7, $8 }' | sort -u)"
expect "no gauge: then opened" "0 1024 0 CI 0 65535" "$(rows | tail -n 1 | awk '{ print $3, $4, $5, $6, $7, $8 }')"
expect "no gauge: summary" "# 16 calls, 15 refused
# refused with 2 (design capacity 0): 1, first none.txt:1
# refused with 14 (saved bytes are no gauge): 14, first none.txt:2" "$(grep '^#' printed)"

# Several refusals over two lists: numbers ascending, each with its own first place.
list first.txt 'open bench\n1 2599 1192\n\n1 3600 1373\n'
list second.txt '# a second list\n28012 3600 1192\n1 4501 1192\n'
run first.txt second.txt
expect "several refusals: summary" "# 5 calls, 4 refused
# refused with 3 (current out of range): 1, first second.txt:2
# refused with 4 (voltage out of range): 2, first first.txt:2
# refused with 5 (temperature out of range): 1, first first.txt:4" "$(grep '^#' printed)"
run - <first.txt
expect "several refusals: standard input is named" "# refused with 4 (voltage out of range): 1, first standard input:2" \
    "$(grep '^# refused with 4' printed)"
