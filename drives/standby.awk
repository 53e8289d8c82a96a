# What standby.gp draws, from the table that `replay --all` prints: after each call the hour, the load, SI, STTE, and SI and STTE by the rule of
# form 1. An empty line, where gnuplot's curves break, stands before another gauge.

function hours(time, part) {
    split(time, part, ":")
    return part[1] + part[2] / 60 + part[3] / 3600
}

function byte(digits) {
    return 16 * (index(figures, substr(digits, 1, 1)) - 1) + index(figures, substr(digits, 2, 1)) - 1
}

# The fourth of the ten configuration bytes is ISLC, half of S0.
function opened(islc) {
    s0 = 2 * byte(islc)
    form_1 = $at["SI"]
    if (lines++ > 0) print ""
}

function minutes(counts, current) {
    return current == 0 || 60 * counts >= 65535 * current ? 65535 : int(60 * counts / current)
}

BEGIN {
    figures = "0123456789ABCDEF"
    print "# hour load si stte form_1_si form_1_stte"
}

NR == 1 {
    for (i = 1; i <= NF; i++) at[$i] = i
    call = at["call"]
    next
}

/^#/ || $at["number"] != 0 || $call == "read" || $call == "preview" || $call == "estimate" { next }
$call == "open" { opened($(call + 4)) }
$call == "load" { opened($(call + 5)) } # the form stands before the ten bytes
$call == "reset" || $call == "partial" { form_1 = s0 }

{ load = $at["FLAGS"] ~ /CHGS/ ? 0 : $at["IAV"] }
$call == "window" && load > 0 && load <= 2 * s0 { form_1 = int((15 * form_1 + load) / 16) }

{ print hours($at["time"]), load, $at["SI"], $at["STTE"], form_1, minutes($at["NAC"], form_1) }
