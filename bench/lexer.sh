#!/bin/sh
# Times the lexer on scripts of 10,000, 100,000 and 1,000,000 units: the best of five runs, the nanoseconds for each unit,
# and their ratio to the smallest script's, which stays near 1 as the lexer is linear. Beside it stands, for orientation,
# the best time of `node --check` on the same script, its start included, where there is a node.
. "$(dirname "$0")/frame.sh"
repository lexer_bench js_core js_lexer
cat >"$work/crates/lexer_bench/src/main.rt" <<'END'
//! Prints for each file that is named how many units it has, and the nanoseconds in which its tokens are found.
#![tactic(auto)]

use js_core::Units;
use js_lexer::tokens;
use std::fs;
use std::io;
use std::time::Instant;

fn time_file(rt: &HostRuntime, name: &str) -> io::Result<()> {
    let text = fs::read_to_string(rt, name)?;
    let Ok(units) = Units::from_utf8(rt.alloc(), text.as_str()) else {
        return Ok(());
    };
    let start = Instant::now(rt)?;
    let found = tokens(rt.alloc(), &units);
    let spent = start.elapsed(rt)?;
    match found {
        Ok(_) => println!(rt; "{} {}", units.as_slice().len(), spent.as_nanos())?,
        Err(_) => println!(rt; "refused")?,
    }
    Ok(())
}
END
main_over_files
# A script of so many units, cut off in a comment.
script() {
    awk -v size="$1" 'BEGIN {
        text = "\"use strict\";\n"
        for (n = 0; length(text) < size - 1000; n++) {
            text = text "function step_" n "(count, names) { // one step\n  var total = 0x1F + count * 3, i;\n"
            text = text "  for (i = 0; i < names.length; i++) {\n    if (names[i] !== \"skip \\u0041\" && total >= 10) { total += names[i].size; }\n"
            text = text "    else { total = total >>> 1 | 7; /* halve\n      it */ }\n  }\n  return { \"total\": total, name: 1 };\n}\n"
        }
        text = text "//"
        printf "%s", text
        for (left = size - length(text); left > 0; left--) printf "-"
    }'
}
# The least of five times of node, in milliseconds.
node_time() {
    command -v node >/dev/null || { echo -; return; }
    for _ in 1 2 3 4 5; do
        begin=$(date +%s%N)
        node --check "$1"
        echo $((($(date +%s%N) - begin) / 1000000))
    done | sort -n | head -n 1
}
: >"$work/0.js"
build "$work/0.js"
heading Units unit 'node --check, ms'
for size in 10000 100000 1000000; do
    script "$size" >"$work/$size.js"
    row "$work/$size.js" "$(node_time "$work/$size.js")"
done
