# Judges what the program writes for the inputs at the limits that examples/check makes: `nodes` nodes, k of 4, subscriber s
# at node 4 s, and `calls` finds, of which number j is by caller 64 + j % 64, from node j * 13 % nodes, of subscriber
# j * 5 % 64. Nobody moves. It prints the first thing that is wrong, and nothing where all is right.

# Over mean covers clusters are wider, and there is one phase.
BEGIN {
    mean = sub(/^mean/, "", word)
    width = mean ? 9 : 7
}

function wrong(what) {
    if (!failed) print "line " NR ": " what
    failed = 1
    exit 1
}

word == "census" {
    if (NR <= 64 && $0 != "node " 4 * (NR - 1) " count 1 subs " NR - 1) wrong("who is at its home")
    if (NR == 65 && $0 != "end 64") wrong("how many there are")
    if (NR > 65) wrong("a line more")
}

word == "costs" {
    if (NR <= 64 && $0 != "cost " NR - 1 " moves 0 moved 0 written 0 purged 0") wrong("who doesn't move costs something")
    if (NR == 65 && $0 != "end") wrong("the end")
    if (NR > 65) wrong("a line more")
}

word == "replay" && $1 == "find" {
    j = $2 - 64 + 64 * made[$2]++
    if ($2 < actor || visits) wrong("the order of the lines")
    actor = $2
    if ($3 != j * 13 % nodes || $4 != j * 5 % 64) wrong("the call")
    if ($5 != "at" || $6 != 4 * $4 || $7 != "number" || $8 != 0) wrong("the answer")
    if ($9 != "level" || ($10 == "-") != ($3 == $6)) wrong("the level")
    if ($11 != "weight" || ($12 == 0) != ($3 == $6)) wrong("the weight")
    if ($13 != "first" || $14 < next_ticket[$2] + 0 || $15 != "last" || $16 < $14) wrong("the tickets")
    next_ticket[$2] = $16 + 1
    finds++
}

word == "replay" && $1 == "order" {
    for (i = 2; i <= NF; i++) {
        if (visits < 3 ? $i != 64 + visits : $i < turn) wrong("the order")
        turn = visits < 3 ? 0 : $i
        visits++
    }
}

word == "replay" && $1 != "find" && $1 != "order" {
    if ($0 != "end " visits || finds != calls) wrong("the end, or the count of finds")
    ended++
}

word == "cover" && NR == 1 {
    if ($0 !~ /^plan nodes [0-9]+ k 4 levels [0-9]+ degree [0-9]+ stretch [0-9]+$/ || $3 != nodes) wrong("the plan")
    if ($11 != 16 * width * $9 + 12 * width + 12) wrong("the stretch")
    levels = $7
    degree = $9
}

word == "cover" && $1 == "level" {
    if ($2 != level || $4 != 2 ^ level || cluster != clusters || $8 > $6 || (mean && $8 != 1)) wrong("the level")
    clusters = $6
    cluster = 0
    split("", inside)
    split("", read)
}

word == "cover" && $1 == "cluster" {
    if ($2 != cluster || $8 > width * 2 ^ level || $9 != "members" || NF < 10) wrong("the cluster")
    for (i = 10; i <= NF; i++) {
        if ($i >= nodes || (i > 10 && $i <= $(i - 1))) wrong("the members")
        inside[cluster, $i] = 1
        if (++read[$i] > most) most = read[$i]
    }
    if (!((cluster, $6) in inside)) wrong("the leader")
    cluster++
}

word == "cover" && $1 == "homes" {
    if (NF != nodes + 1 || cluster != clusters) wrong("the homes, or the count of clusters")
    for (v = 0; v < nodes; v++) if (!(($(v + 2), v) in inside)) wrong("the home of node " v)
    level++
}

word == "cover" && $1 == "end" {
    if (NF != 1 || level != levels || most != degree) wrong("the levels, or the degree")
    ended++
}

# The stretches are one line, whose own are least between commits.
word == "stretch" {
    if (NF != 6 || $1 != "stretch" || $3 != "own" || $5 != "any" || $4 > $6 || $6 >= $2) wrong("the stretches")
    ended++
}

# JSON is one line: its head and its end, and how many calls it tells.
word == "tojson" {
    if (index($0, "{\"callers\":64,\"calls\":[[\"find\",64,0,0],") != 1) wrong("the first call")
    if (!index($0, "],\"k\":4,\"nodes\":" nodes ",\"order\":[64,65,66],\"subs\":[")) wrong("the network")
    if (gsub(/"find"/, "") != calls) wrong("the count of calls")
    ended++
}

word == "replayjson" {
    if (index($0, "{\"calls\":[{\"actor\":64,\"first\":0,\"from\":0,\"kind\":\"find\",") != 1) wrong("the first call")
    if (gsub(/"kind":"find"/, "") != calls || $0 !~ /,"visits":[0-9]+[}]$/) wrong("the count of calls, or the end")
    ended++
}

END {
    if (failed) exit 1
    if (word == "census" || word == "costs" ? NR != 65 : ended != 1) wrong("the end")
}
