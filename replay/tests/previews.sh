# shellcheck shell=bash disable=SC2154 # what check sets
# A preview shows what a line would leave, before it (request A2): the registers below its row are those of the row after the line itself, and its
# own row has the gauge as it was.

# Of a table with --all, the eighteen registers below each preview.
would_be() {
    awk '/^# +would be / { line = $4; for (i = 5; i <= 21; i++) line = line " " $i; print line }' printed
}

# The commands that would be obeyed.
obeyed() {
    sed -n 's/^# *would be .* by //p' printed
}

# previewed PREVIEW LINE MODE COMMAND: after MODE is written, the preview shows what the line then leaves, by that command.
previewed() {
    printf '%s\nwrite 1 %s\n%s\n%s\n' "$start" "$3" "$1" "$2" >preview.txt
    run --all preview.txt
    expect "$1 with MODE $3: accepted" "# 9 calls, none refused" "$(tail -n 1 printed)"
    expect "$1 with MODE $3: command" "$4" "$(obeyed)"
    expect "$1 with MODE $3: what the line leaves" "$(registers | sed -n 9p)" "$(would_be)"
    expect "$1 with MODE $3: the gauge and the time are kept" "$(rows | sed -n 7p | sed 's/ write .*//')" \
        "$(rows | sed -n 8p | sed 's/ preview .*//')"
}

# MODE, AR, charge, LMD, load and flags of the start all differ from what some command leaves. A line brings its own bit, a key takes the highest one set.
for mode in 0xC4 0x3B; do
    previewed 'preview nac 900' 'nac 900' "$mode" WRTNAC
    previewed 'preview done' 'done' "$mode" DONE
    previewed 'preview partial' 'partial' "$mode" PRST
    previewed 'preview reset' 'reset' "$mode" FRST
    previewed 'preview lmd 300' 'lmd 300' "$mode" WRTLMD
done
previewed 'preview 0xA9' 'write 0 0xA9' 0xFF WRTNAC
previewed 'preview 0xA9' 'write 0 0xA9' 0x1F DONE
previewed 'preview 0xA9' 'write 0 0xA9' 0x0F PRST
previewed 'preview 0xA9' 'write 0 0xA9' 0x07 FRST
previewed 'preview 0x56' 'write 0 0x56' 0xC5 WRTLMD

# By the formulas, after the request's three windows: RSOC floor(100 * 900 / 1024) = 87; the run is over, so VDQ is clear; CAC 900 - 127 = 773, as the
# load is the same; TTE floor(60 * 773 / 3000) = 15; AR is 900, whose DCMP is ceil(900 * 13 / 256 - 26) = 20, so ARTTE is floor(60 * 880 / 900) = 58;
# STTE 60 * 900 / 10 = 5400.
list lines.txt 'c v t\n2 3700 1192\n20 4150 1192\n-3000 3600 1192\npreview nac 900\n'
run --all lines.txt
expect "a preview stands under the headings" "\
      time number   NAC   LMD RSOC        FLAGS   CAC   TTE MODE    AR ARTTE  TEMP  VOLT  FCAC   IAV   TTF    SI  STTE  CEDV  CYCT call
0:00:15.36      0  1019  1024   99       CI+VDQ   892    17 0x40     0 65535  1192  3600   897  3000 65535    10  6114  3000     0 preview nac 900
#        would be   900  1024   87           CI   773    15 0x40   900    58  1192  3600   897  3000 65535    10  5400  3000     0 by WRTNAC
# 5 calls, none refused" "$(sed -n '1p; 6,$p' printed)"

# Wherever previews stand, accepted or refused, the other rows and the saved bytes are those of the list without them.
awk '1; /^[^#]/ { print "preview nac 5\npreview 0xA9\npreview lmd 0\npreview reset" }' "$root/replay/examples/monday.txt" >between.txt
run --all --save between.saved between.txt
expect "previews between the calls: they are made" "18 previews shown of 36" \
    "$(would_be | wc -l) previews shown of $(rows | grep -c ' preview ')"
between=$(rows | grep -v ' preview ')
run --all --save without.saved "$root/replay/examples/monday.txt"
expect "previews between the calls: the other rows" "$(rows)" "$between"
expect "previews between the calls: the saved bytes" "$(cat without.saved)" "$(cat between.saved)"

# README.md shows this list and what is printed for it.
status=0
(cd "$root" && "$replay" replay/examples/service.txt) >printed || status=$?
expect "README.md: service.txt is run" "0 15" "$status $(wc -l <printed)"
shown_in_readme "the table of service.txt"
cp "$root/replay/examples/service.txt" printed
shown_in_readme "service.txt"
