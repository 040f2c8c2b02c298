#!/bin/sh
# How `check` ends, and how its time grows, where a script nests deep: brackets of each kind, and what nests without brackets, under the
# usual stack of 8 MiB. A kind that makes height is refused with its note, each other one is a script. The last column stays about the
# same where the time is in proportion.
# The program is the one that `./imagen` runs.
case ${1:-} in -h | --help)
    sed -n '2,/^[^#]/s/^# \{0,1\}//p' "$0"
    exit
    ;;
esac
top=$(cd "$(dirname "$0")/.." && pwd) || exit 1
program=$("$top/imagen" --program) || exit
work=$(mktemp -d) || exit 1
trap 'rm -rf "$work"' EXIT
ulimit -s 8192

# repeated TEXT COUNT
repeated() {
    yes "$1" | head -n "$2" | tr -d '\n'
}

# row KIND OPENING MIDDLE CLOSING AFTER: so many openings and closings, for each of three numbers
row() {
    for count in 10000 100000 1000000; do
        {
            printf '<html><script>"use strict";'
            repeated "$2" $count
            printf '%s' "$3"
            repeated "$4" $count
            printf '%s</script></html>' "$5"
        } >"$work/page.html"
        from=$(date +%s%N)
        note=$("$program" check "$work/page.html" 2>&1)
        status=$?
        to=$(date +%s%N)
        printf '%-14s  %7d   %6d   %-36s   %7d\n' "$1" $count $status "$note" $(((to - from) / count))
    done
}

printf 'kind              count   status   answer                                 ns each\n'
row 'parentheses' '(' a ')' ';'
row 'with operands' '(' a ')+b' ';'
row 'with commas' '(a,' b ')' ';'
row 'arrays' '[' '' ']' ';'
row 'objects' '({a:' 1 '})' ';'
row 'indices' 'a[' b ']' ';'
row 'calls' 'a(' b ')' ';'
row 'arguments' 'a((' b '))' ';'
row 'blocks' '{' '' '}' ''
row 'functions' '(function(){' '' '})' ';'
row 'conditions' 'if(a)' ';' '' ''
row 'operators' '~' a '' ';'
row 'assignments' 'a=' a '' ';'
row 'constructors' 'new ' a '' ';'
row 'loops' 'for(;;)' ';' '' ''
row 'loops of a' 'for(a;;)' ';' '' ''
row 'loops of var' 'for(var a;;)' ';' '' ''
