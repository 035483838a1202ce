# Prints a trace's story: its comments as paragraphs, and below each the calls with their answers and what they mean,
# times in seconds. Given the trace and the answers; both as docs/TRACES.md has them.

function seconds(n,   text) {
    text = sprintf("%.9f", n / 1e9)
    sub(/\.?0+$/, "", text)
    return text " s"
}

# where a timer was placed: level x 64 + index
function place(n) { return sprintf("level %d, bucket %d", int(n / 64), n % 64) }

function refused(number) { return number in WHEN ? WHEN[number] : "docs/RULES.md says when" }

# what a call and its answer mean, where they do not say it themselves
function meaning(call, answer,   c, a) {
    split(call, c, " ")
    split(answer, a, " ")
    if (a[1] == "refused") return refused(a[2])
    if (c[1] == "set") return "entry " c[2] " is due at " seconds(c[3])
    if (c[1] == "schedule") return "a timer for entry " c[2] ": slot " a[2] ", serial " a[3]
    if (c[1] == "start") return "the clock goes to " seconds(c[2])
    if (c[1] == "abandon") return "the advance is given up: the clock goes back"
    if (c[1] == "due") return a[2] == "-" ? "nothing is due" : "the next deadline: " seconds(a[2])
    if (c[1] == "armed") return a[2] " timers are armed"
    if (a[1] == "expired") return "ALARM of entry " a[2] ", due at " seconds(a[4])
    if (a[1] == "rescheduled") return "entry " a[2] "'s timer is placed anew: " place(a[4])
    if (a[1] == "end") return "nothing more: the advance is closed"
    if (c[1] == "estimate") return "hash " c[2] " was seen about " a[2] " times"
    if (c[1] == "record") return a[2] " words in use, aged at " a[3] " increases, " a[4] " so far"
    if (c[1] == "digest") return "a number over every record"
    return ""
}

BEGIN {
    WHEN[4] = "the records are not sound"
    WHEN[10] = "no slot is free"
    WHEN[12] = "the handle is stale"
    WHEN[15] = "the capacity is above 65,536"
    WHEN[17] = "the slot is not in this deque"
}

FILENAME == ARGV[2] && FNR == 1 { trace = 1 }
!trace { answers[FNR] = $0; next }
/^#/ { print (FNR > 1 ? "\n" : "") substr($0, 3); next }
{
    n++
    line = sprintf("  %-22s %-28s %s", $0, answers[n], meaning($0, answers[n]))
    sub(/ +$/, "", line)
    print line
}
