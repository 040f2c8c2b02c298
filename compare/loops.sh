#!/bin/sh
# Times loops over properties, sums, calls and closures, six million turns, under `replay` and under MuJS and Duktape (Debian's packages mujs and
# duktape) in the same run: the best of five, and the ratio to Duktape. The program is the one that `./imagen` runs.
case ${1:-} in -h | --help)
    sed -n '2,/^[^#]/s/^# \{0,1\}//p' "$0"
    exit
    ;;
esac
set -e
top=$(cd "$(dirname "$0")/.." && pwd)
program=$("$top/imagen" --program)
work=$(mktemp -d)
trap 'rm -rf "$work"' EXIT
cd "$work"
turns=10
printf '<html><script>%s</script></html>' "$(cat "$top/compare/loops.js")" >page.html
# each event has a million steps: work takes some 400,000, closures some 400,000
awk -v n=$turns 'BEGIN { printf "["; for (i = 0; i < n; i++) printf "%s{\"call\":\"work\"},{\"call\":\"closures\"}", i ? "," : ""; printf "]" }' >events.json
{
    cat "$top/compare/loops.js"
    echo "for (var k = 0; k < $turns; k = k + 1) { work(); closures(); }"
    echo "print(total);"
} >loops.js

# best NAME COMMAND..: the least seconds of five runs
best() {
    name=$1
    shift
    for _ in 1 2 3 4 5; do
        begun=$(date +%s%N)
        "$@" >out
        echo $(($(date +%s%N) - begun))
    done | sort -n | head -n 1 | awk -v name="$name" '{ printf "%s %.3f\n", name, $1 / 1e9 }'
}
{
    best Duktape duk loops.js
    best MuJS mujs loops.js
    best imagen "$program" replay page.html events.json
} | awk 'NR == 1 { duk = $2; print "| Program | s | to Duktape |"; print "|---|---|---|" } { printf "| %s | %s | %.2f |\n", $1, $2, $2 / duk }'
