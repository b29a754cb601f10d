# Makes the tables of bench/run. Input, with tabs between: group, row, kind, bytes, instructions here, of the Rust built fat and built as
# cargo does, stack here, stack of the Rust.
BEGIN {
    FS = "\t"
    line = "%-36s %6s %10s %10s %8s %8s %6s%1s %10s %8s %6s\n"
}

{
    group[NR] = $1; name[NR] = $2; bytes[NR] = $4; here[NR] = $5; rust[NR] = $6; plain[NR] = $7; stack[NR] = $8; rust_stack[NR] = $9
    title[NR] = $1 ": " $2
    row[title[NR]] = NR
}

# The goal: half of the Rust's instructions on messages of 4 kB and more, elsewhere no more than the Rust's.
function goal(i) { return group[i] == "Messages" ? 0.5 : 1 }

function growth(what, small, large) {
    small = row[what ", 4 kB"]
    large = row[what ", 60 kB"]
    printf "%-60s %8.2f %8.2f %8.2f %8.2f\n", what, here[small] / bytes[small], here[large] / bytes[large], \
        rust[small] / bytes[small], rust[large] / bytes[large]
}

# The cost of a table row at each size, and of each node more between the two largest.
function nodes(what, a, b, c, d, more) {
    print_nodes(what, "here", here[a], here[b], here[c], here[d], more)
    print_nodes("", "Rust", rust[a], rust[b], rust[c], rust[d], more)
}

function print_nodes(what, side, a, b, c, d, more) {
    printf "%-46s %-5s %9d %9d %9d %9d %9.1f\n", what, side, a, b, c, d, (d > c ? (d - c) / more : 0)
}

END {
    printf line, "", "", "instr.", "instr.", "a byte", "a byte", "here/", "", "Rust by", "stack", "stack"
    printf line, "", "bytes", "here", "Rust", "here", "Rust", "Rust", "", "cargo", "here", "Rust"
    for (i = 1; i <= NR; i++) {
        if (group[i] != group[i - 1])
            print "\n" group[i]
        missed = here[i] > goal(i) * rust[i]
        if (missed)
            list = list sprintf("  %-70s %5.2f\n", title[i], here[i] / rust[i])
        misses += missed
        cheaper += plain[i] < rust[i]
        printf line, "  " name[i], bytes[i], here[i], rust[i], sprintf("%.2f", here[i] / bytes[i]), sprintf("%.2f", rust[i] / bytes[i]), \
            sprintf("%.2f", here[i] / rust[i]), missed ? "*" : "", plain[i], stack[i], rust_stack[i]
        if (stack[i] > stack[deepest])
            deepest = i
        if (stack[i] > stack[plain_deepest] && group[i] !~ /^Default/)
            plain_deepest = i
        if (rust_stack[i] > rust_stack[rust_deepest])
            rust_deepest = i
    }

    print "\nGrowth with length: instructions a byte"
    printf "%-60s %8s %8s %8s %8s\n", "", "here", "here", "Rust", "Rust"
    printf "%-60s %8s %8s %8s %8s\n", "", "4 kB", "60 kB", "4 kB", "60 kB"
    for (i = 1; i <= NR; i++)
        if (sub(/, 4 kB$/, "", name[i]))
            growth(group[i] ": " name[i])

    print "\nGrowth with nodes: instructions a header, and for each node more"
    printf "%-46s %-5s %9s %9s %9s %9s %9s\n", "", "", 10, 100, 1000, 4096, "a node"
    split("Root with leaves, random names;Root with leaves, CHANnel names;" \
        "Tree of eight children a branch, random names;Tree of eight children a branch, CHANnel names", tables, ";")
    split("first;last;unknown", where, ";")
    for (t = 1; t <= 4; t++)
        for (w = 1; w <= 3; w++) {
            short = tables[t]
            sub(/Tree of eight children a branch/, "Tree", short)
            nodes(short ", " where[w], row[tables[t] ": 10 nodes, " where[w]], row[tables[t] ": 100 nodes, " where[w]], \
                row[tables[t] ": 1000 nodes, " where[w]], row[tables[t] ": 4096 nodes, " where[w]], 3096)
        }
    t = "Default branches unsaid: chain of "
    nodes("Chain of default branches, the last 4000 deep", row[t 10], row[t 100], row[t 1000], row[t 4000], 3000)

    printf "\nDeepest stack, in bytes: here %d (%s), Rust %d (%s)\n", stack[deepest], title[deepest], rust_stack[rust_deepest], \
        title[rust_deepest]
    printf "Without the chains of default branches: here %d (%s)\n", stack[plain_deepest], title[plain_deepest]
    printf "\n%d rows. The Rust of the table is the build with optimisation at link time; cargo's own is cheaper on %d rows.\n", NR, cheaper
    if (misses)
        printf "Above the goal (half of the Rust under Messages, elsewhere the Rust): %d rows, marked *.\n%s", misses, list
    else
        print "All rows meet the goal: half of the Rust under Messages, elsewhere the Rust."
}
