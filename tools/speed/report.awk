# Makes the report of tools/speed/run from what was measured: lines 'time', 'real' (see speed.c), 'count' and 'where' (see
# run). counter is what counted the instructions, missing why nothing could.

$1 == "time" { time[$2, $3, $4, $5] = $6 }
$1 == "real" { real[$2, $3] = $4 }
$1 == "count" { taken[$2, $3, $4, $5] = $6 }
$1 == "where" { part[$2, $4] += $3; sum[$2] += $3; names[$4] }

function call_name(call) { return call ? "`tk_slots`, runs of " call : "`tk_event`" }
function mix_name(mix) { return mix == "whole" ? "whole mix" : "one chip spoken to" }
function ratio(of, call, mix, chips) { return of["library", call, mix, chips] / of["plain", call, mix, chips] }

# One row of a table of numbers: library and plain C, and how many times as much the library takes.
function ratio_row(of, call, mix,   row, i) {
    row = "| " call_name(call) ", " mix_name(mix) " |"
    for (i = 1; i <= 3; i++)
        row = row sprintf(" %.0f and %.0f: %.2f |", of["library", call, mix, chips[i]], \
            of["plain", call, mix, chips[i]], ratio(of, call, mix, chips[i]))
    print row
}

function ratio_table(of,   m, i) {
    print "| | 1 chip | 4 chips | 16 chips |\n|---|---|---|---|"
    for (m = 1; m <= 2; m++)
        for (i = 1; i <= 3; i++)
            ratio_row(of, calls[i], mixes[m])
    printf "| plain C on structs of its own, nothing checked, one event a call, whole mix |"
    for (i = 1; i <= 3; i++)
        printf " %.0f |", of["structs", 0, "whole", chips[i]]
    print ""
}

function instructions() {
    print "\n## Instructions of a slot\n"
    if (missing != "") {
        print "Not counted: " missing "."
        return
    }
    print "Library and plain C on the same bytes, and how many times as many the library takes. A reset counts as a slot, and"
    print "goes by `tk_event` in every row. Counted by " counter ".\n"
    ratio_table(taken)
}

# Times as fast as a real line.
function times_real(call, mix, chips) { return real[mix, chips] / time["library", call, mix, chips] }

function real_row(call, mix,   row, i) {
    row = "| " call_name(call) ", " mix_name(mix) " |"
    for (i = 1; i <= 3; i++)
        row = row sprintf(" %.2f million: %.0f |", 1e3 / time["library", call, mix, chips[i]], \
            times_real(call, mix, chips[i]))
    print row
}

function times(   m, i) {
    print "\n## Time of a slot\n"
    print "Nanoseconds of the library and of plain C on the same bytes, and how many times as long the library takes: the time that"
    print "the program had of the processor, the best of several tries. It varies with what else the machine does; instructions do"
    print "not.\n"
    ratio_table(time)
    print "\nThe library's slots a second, and how many times as fast as a real line that is. A real line takes 61 µs for a slot"
    print "and 960 µs for a reset, as documents 01 and 002 cost them. That is the least: the sheet of the DS28EC20 has 65 µs for a"
    print "slot, so that a real line is rather slower.\n"
    print "| | 1 chip | 4 chips | 16 chips |\n|---|---|---|---|"
    for (m = 1; m <= 2; m++)
        for (i = 1; i <= 3; i++)
            real_row(calls[i], mixes[m])
}

# One bar: what was found at 1, 4 and 16 chips, and whether it is met.
function bar(text, a, b, c, met) { printf "| %s | %s | %s | %s | %s |\n", text, a, b, c, met ? "met" : "**not met**" }

function ratio_bar(call, most1, most,   r, i, text) {
    text = sprintf("%s: at most %.1f times plain C", call_name(call), most1)
    if (most1 != most)
        text = text sprintf(", %.1f at 4 and 16 chips", most)
    if (missing != "") {
        print "| " text " | | | | not counted |"
        return
    }
    for (i = 1; i <= 3; i++)
        r[i] = ratio(taken, call, "whole", chips[i])
    bar(text, sprintf("%.2f", r[1]), sprintf("%.2f", r[2]), sprintf("%.2f", r[3]), \
        r[1] <= most1 && r[2] <= most && r[3] <= most)
}

function flat_bar(call,   text, n, i) {
    text = "one chip spoken to, the others waiting, runs of " call ": nearly flat (at most 1.1 times one chip's)"
    if (missing != "") {
        print "| " text " | | | | not counted |"
        return
    }
    for (i = 1; i <= 3; i++)
        n[i] = taken["library", call, "opened", chips[i]]
    bar(text, sprintf("%.0f", n[1]), sprintf("%.0f", n[2]), sprintf("%.0f", n[3]), \
        n[2] <= 1.1 * n[1] && n[3] <= 1.1 * n[1])
}

function real_bar(call,   found) {
    found = times_real(call, "whole", 16)
    bar(sprintf("runs of %d at 16 chips: at least 100 times as fast as a real line", call), "", "", \
        sprintf("%.0f", found), found >= 100)
}

function bars() {
    print "\n## Bars\n"
    print "| | 1 chip | 4 chips | 16 chips | |\n|---|---|---|---|---|"
    ratio_bar(256, 1.2, 1.0)
    ratio_bar(8, 1.2, 1.0)
    ratio_bar(0, 1.1, 1.1)
    flat_bar(256)
    real_bar(256)
    real_bar(8)
}

# Where the instructions of a call go, the most first.
function where(call,   name, sorted) {
    print "\n" call_name(call) ":\n"
    sorted = "sort -rn -k 2"
    for (name in names)
        if (part[call, name] >= sum[call] / 100)
            printf "- %5.1f %% `%s`\n", 100 * part[call, name] / sum[call], name | sorted
    close(sorted)
}

END {
    split("1 4 16", chips)
    split("256 8 0", calls)
    split("whole opened", mixes)
    bars()
    instructions()
    times()
    if (missing == "") {
        print "\n## Where the library's instructions go, at 4 chips"
        where(256)
        where(0)
    }
}
