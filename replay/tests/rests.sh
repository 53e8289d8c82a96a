# shellcheck shell=bash disable=SC2154 # what check sets
# A rest of n windows ends as n rests of one at the same temperature (A3 of paper 02), up to a month of them (A6).

# in_ones N T: N rests of one window each. A month is 75 * 6750 windows, which have a row each only in the first round and in the last.
in_ones() {
    if [ "$1" = 506250 ]; then
        printf 'repeat 75\nrepeat 6750\nrest 1 %s\nend\nend\n' "$2"
        return
    fi
    for ((i = 0; i < $1; i++)); do echo "rest 1 $2"; done
}

# alike TITLE PACK N T NAC: from full, N windows at T at once and one by one end with the same bytes, and with this NAC.
alike() {
    list full.txt "open $2\ndone\n"
    list at-once.txt "rest $3 $4\n"
    in_ones "$3" "$4" >in-ones.txt
    run --save at-once.saved full.txt at-once.txt
    expect "$1: NAC" "$5" "$(rows | tail -n 1 | awk '{ print $3 }')"
    run --save in-ones.saved full.txt in-ones.txt
    expect "$1: saved bytes" "$(cat at-once.saved)" "$(cat in-ones.saved)"
}

# The bench pack, full, leaks 1024 * 8 grains in the first window at 1192, which breaks its 1024th count, and 16,874 times at most
# 1023 * 8 after it: 138,096,816, more than a count of 135,000,000 and less than two.
alike "a day of the bench pack" bench 16875 1192 1022
# ILMD 255 and SD 15 at 1372 leak 65280 * 15 * 128 = 125,337,600 grains and somewhat less in each further window: 13 windows take 12.07
# counts, the last of them in part. The NAC after a day is a computed row of the proofs.
alike "a leak of nearly a count" 'FF 5E 77 05 2F 10 00 00 6C 15' 13 1372 65267
alike "a day that loses 13,929 counts" 'FF 5E 77 05 2F 10 00 00 6C 15' 16875 1372 51351
# SD 0: nothing leaks.
alike "a day without a leak" '04 5E 77 05 20 10 00 00 6C 15' 16875 1192 1024

# left_after LMD SD W WINDOWS: NAC of a full gauge after a rest, count by count: NAC counts leak NAC * SD * W grains in each window until less than NAC
# whole counts are left.
left_after() {
    awk -v lmd="$1" -v rate=$(($2 * $3)) -v windows="$4" 'BEGIN {
        count = 135000000
        held = lmd * count
        for (nac = lmd; windows > 0 && nac > 0; nac = int(held / count)) {
            taken = int((held - nac * count) / (nac * rate)) + 1
            if (taken > windows) taken = windows
            held -= taken * nac * rate
            windows -= taken
        }
        print nac
    }'
}

# 506250 * 8 / 135000000 is 0.03: of 1024 counts exp(-0.03) is left, 993.7. At 70 degrees 506250 * 128 / 135000000 is 0.48, and 15 times that 7.2: of 1024 counts
# 633.6, of 65280 counts 48.7. Where few counts are left, whole ones leak somewhat less than the charge itself would.
expect "a month count by count" "993 633 49" \
    "$(left_after 1024 1 8 506250) $(left_after 1024 1 128 506250) $(left_after 65280 15 128 506250)"
alike "a month of the bench pack" bench 506250 1192 "$(left_after 1024 1 8 506250)"
alike "a month of the bench pack below 0 degrees" bench 506250 1091 "$(left_after 1024 1 1 506250)"
alike "a month of the bench pack at 70 degrees" bench 506250 1372 "$(left_after 1024 1 128 506250)"
alike "a month of the fastest leak" 'FF 5E 77 05 2F 10 00 00 6C 15' 506250 1372 "$(left_after 65280 15 128 506250)"
alike "a month without a leak" '04 5E 77 05 20 10 00 00 6C 15' 506250 1192 1024

# However a month is divided: a day and a window more than a day could have been the most before A6.
divided() { # LINE ..: from full, the saved bytes after these lines
    { printf 'open bench\ndone\n'; printf '%s\n' "$@"; } >divided.txt
    run --save divided.saved divided.txt
    cat divided.saved
}
month=$(divided 'rest 506250 1192')
expect "a month in days" "$month" "$(divided 'repeat 30' 'rest 16875 1192' 'end')"
expect "a month in a day and a window, and the others" "$month" "$(divided 'rest 16876 1192' 'rest 489374 1192')"
expect "a month in all but one, and one" "$month" "$(divided 'rest 506249 1192' 'rest 1 1192')"
