#!/bin/sh
# How the time of a command grows with the page and the events: `replay` of 10,000 to 200,000 assignments, and of events on a
# small page; `check` of object literals, of functions with many variables or with many formals that a function inside uses, of
# uses under 1, 20 and 60 functions and of empty statements under 190 blocks; `instrument` of uses under 60. The last column stays
# about the same where the time is in proportion. The program is the one that `./imagen` runs.
case ${1:-} in -h | --help)
    sed -n '2,/^[^#]/s/^# \{0,1\}//p' "$0"
    exit
    ;;
esac
top=$(cd "$(dirname "$0")/.." && pwd) || exit 1
program=$("$top/imagen" --program) || exit
work=$(mktemp -d) || exit 1
trap 'rm -rf "$work"' EXIT

# repeated TEXT COUNT
repeated() {
    yes "$1" | head -n "$2" | tr -d '\n'
}

# numbered FORMAT COUNT: the text of the format for each number below the count
numbered() {
    seq 0 $(($2 - 1)) | xargs printf "$1"
}

# page MARK SCRIPT..: the page with this mark and script, in $work
page() {
    mark=$1
    shift
    {
        printf '%s<html><script>"use strict";' "$mark"
        "$@"
        printf '</script></html>'
    } >"$work/page.html"
}

# row WHAT COUNT COMMAND..: runs the command and prints what a part takes
row() {
    what=$1 count=$2
    shift 2
    from=$(date +%s%N)
    "$program" "$@" >/dev/null || exit 1
    to=$(date +%s%N)
    printf '%-10s  %7d   %12d   %18d\n' "$what" "$count" $(((to - from) / 1000000)) $(((to - from) / count))
}

statements() {
    printf 'var n=0;'
    repeated 'n=n+1;' "$1"
}

literal() {
    printf 'var o={'
    numbered 'f%d:0,' "$1"
    printf '};'
}

# A function with so many variables, and as many uses of them.
variables() {
    printf '(function(){'
    numbered 'var v%d;' "$1"
    numbered 'v%d;' "$1"
    printf '}());'
}

# A function with so many formals, all of which the function inside it uses.
formals() {
    printf '(function($$f'
    numbered ',$$f%d' "$1"
    printf '){return function(){'
    numbered '$$f%d;' "$1"
    printf '};}());'
}

# nested_uses DEPTH COUNT: so many uses of a formal of the outermost of so many functions in one another
nested_uses() {
    printf '(function(a){'
    repeated 'return function(){' $(($1 - 1))
    repeated 'a;' "$2"
    repeated '};' $(($1 - 1))
    printf '}());'
}

blocks() {
    repeated '{' 190
    repeated ';' "$1"
    repeated '}' 190
}

echo 'what          parts   milliseconds   nanoseconds a part'
printf '[]' >"$work/events.json"
for count in 10000 50000 100000 200000; do
    page '' statements "$count"
    row statements "$count" replay "$work/page.html" "$work/events.json"
done
for count in 10000 50000 100000; do
    page '' literal "$count"
    row fields "$count" check "$work/page.html"
done
for count in 10000 50000 100000; do
    page '<!--imagen 1-->' variables "$count"
    row variables "$count" check "$work/page.html"
done
for count in 10000 50000 100000; do
    page '<!--imagen 1-->' formals "$count"
    row formals "$count" check "$work/page.html"
done
for depth in 1 20 60; do
    for count in 10000 100000 1000000; do
        page '' nested_uses "$depth" "$count"
        row "uses, $depth" "$count" check "$work/page.html"
    done
done
for count in 10000 100000 1000000; do
    page '' nested_uses 60 "$count"
    row opened "$count" instrument "$work/page.html"
done
for count in 10000 100000 1000000; do
    page '' blocks "$count"
    row empty "$count" check "$work/page.html"
done
page '' printf 'var n=0;function t(){n=n+1;console.log(n);}'
for count in 10000 50000 100000; do
    {
        printf '['
        repeated '{"call":"t"},' $((count - 1))
        printf '{"call":"t"}]'
    } >"$work/events.json"
    row events "$count" replay "$work/page.html" "$work/events.json"
done
