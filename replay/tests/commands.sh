# shellcheck shell=bash disable=SC2154 # what check sets
# done, nac, lmd, reset and partial are the host's single writes: AR where the command needs one, the command's bit to MODE with bits 7, 6 and
# 2 as they were read, the key to CTRL.

# A pack with bit 7 of PKCFG set, so that MODE is opened as 0xC4; with drain, load and AR, so that each command has something to change.
start='open 04 5E 77 05 21 10 80 00 6C 15
20 4150 1192
-3000 3600 1192
-8000 3000 1192
write 2 0x34
write 3 0x12'

# command_equals LINE MODE-BEFORE MODE-AFTER WRITE ..: the line does what the writes do, and leaves MODE-AFTER.
command_equals() {
    local line=$1 before=$2 after=$3 write
    printf '%s\nwrite 1 %s\n%s\n' "$start" "$before" "$line" >line.txt
    printf '%s\nwrite 1 %s\n' "$start" "$before" >writes.txt
    shift 3
    for write in "$@"; do echo "write $write" >>writes.txt; done
    run --all line.txt
    expect "$line with MODE $before: accepted" "# 8 calls, none refused" "$(tail -n 1 printed)"
    expect "$line with MODE $before: MODE after it" "$after" "$(registers | tail -n 1 | awk '{ print $7 }')"
    local got
    got=$(registers | tail -n 1)
    run --all writes.txt
    expect "$line with MODE $before: the writes are accepted" "none refused" "$(tail -n 1 printed | sed 's/.*, //')"
    expect "$line with MODE $before: as the writes" "$(registers | tail -n 1)" "$got"
}

# Full clears bit 2, INIT; FRST and PRST put MODE as opened, here 0xC4.
command_equals "done" 0xC4 0xC0 '1 0xD4' '0 0xA9'
command_equals "done" 0xFF 0xC0 '1 0xD4' '0 0xA9'
command_equals "done" 0x3B 0x00 '1 0x10' '0 0xA9'
command_equals 'nac 900' 0xC4 0xC4 '2 0x84' '3 0x03' '1 0xE4' '0 0xA9'
command_equals 'nac 900' 0x80 0x80 '2 0x84' '3 0x03' '1 0xA0' '0 0xA9'
command_equals 'nac 0' 0x7B 0x40 '2 0' '3 0' '1 0x60' '0 0xA9'
command_equals 'lmd 900' 0xC4 0xC4 '2 0x84' '3 0x03' '1 0xC5' '0 0x56'
command_equals 'lmd 900' 0x3F 0x04 '2 0x84' '3 0x03' '1 0x05' '0 0x56'
command_equals 'lmd 65535' 0x40 0x40 '2 0xFF' '3 0xFF' '1 0x41' '0 0x56'
command_equals reset 0xFF 0xC4 '1 0xC6' '0 0xA9'
command_equals reset 0x00 0xC4 '1 0x02' '0 0xA9'
command_equals partial 0xFF 0xC4 '1 0xCC' '0 0xA9'
command_equals partial 0x3F 0xC4 '1 0x0C' '0 0xA9'

# What the commands are for. WRTNAC takes the smaller of AR and LMD, and WRTLMD lowers NAC to the new LMD.
list use.txt 'open bench\nnac 512\nnac 2000\nlmd 900\ndone\n20 4150 1192\npartial\nreset\n'
run use.txt
expect "commands: NAC LMD RSOC FLAGS" "0 1024 0 CI
512 1024 50 CI
1024 1024 100 CI
900 900 100 CI
900 900 100 CI+VDQ
900 900 100 CHGS+CI+VDQ
900 900 100 CI
0 1024 0 CI" "$(rows | awk '{ print $3, $4, $5, $6 }')"

# The writes of AR and MODE before a refused key are undone with it.
printf '%s\nwrite 1 0x3B\nlmd 0\n' "$start" >line.txt
run --all line.txt
expect "lmd 0: number" 11 "$(rows | tail -n 1 | awk '{ print $2 }')"
expect "lmd 0: MODE and AR" "0x3B $((0x1234))" "$(registers | tail -n 1 | awk '{ print $7, $8 }')"
