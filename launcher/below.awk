# Prints the lines of crates.txt of the crate `top` and of all below it, by name.
/^[^#]*:/ {
    name = $1
    sub(/:.*/, "", name)
    line[name] = $0
}

END {
    waiting[1] = top
    for (at = last = 1; at <= last; at++) {
        if (!(waiting[at] in line) || waiting[at] in taken) {
            continue
        }
        taken[waiting[at]]
        text = line[waiting[at]]
        sub(/^[^:]*:/, "", text)
        count = split(text, uses, " ")
        for (i = 1; i <= count; i++) {
            waiting[++last] = uses[i]
        }
    }
    for (name in taken) {
        print line[name] | "LC_ALL=C sort"
    }
}
