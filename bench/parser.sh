#!/bin/sh
# Times the parser on scripts of 10,000 and 100,000 short statements: the best of five runs, the nanoseconds for each
# statement, and their ratio to the shorter script's, which stays near 1 as the parser is linear in the number of statements.
# The tokens are found before the clock starts.
. "$(dirname "$0")/frame.sh"
repository parser_bench js_core js_lexer js_grammar js_print expression_parser script_parser
cat >"$work/crates/parser_bench/src/main.rt" <<'END'
//! Prints for each file that is named how many statements its script has, and the nanoseconds in which it is parsed.
#![tactic(auto)]

use js_core::{Token, Units};
use js_lexer::tokens;
use script_parser::script;
use std::fs;
use std::io;
use std::time::Instant;

fn time_script(rt: &HostRuntime, tokens: Vec<Token>) -> io::Result<()> {
    let start = Instant::now(rt)?;
    let found = script(rt.alloc(), tokens);
    let spent = start.elapsed(rt)?;
    match found {
        Ok(script) => println!(rt; "{} {}", script.body.len(), spent.as_nanos())?,
        Err(_) => println!(rt; "refused")?,
    }
    Ok(())
}

fn time_file(rt: &HostRuntime, name: &str) -> io::Result<()> {
    let text = fs::read_to_string(rt, name)?;
    let Ok(units) = Units::from_utf8(rt.alloc(), text.as_str()) else {
        return Ok(());
    };
    let Ok(found) = tokens(rt.alloc(), &units) else {
        return Ok(());
    };
    time_script(rt, found)
}
END
main_over_files
# A script of so many statements.
script() {
    awk -v count="$1" 'BEGIN {
        for (n = 0; n < count; n += 5) {
            print "var total_" n " = count * 3 + " n ";"
            print "if (total_" n " >= 10) total_" n " -= list[0].size"
            print "for (i = 0; i < 4; i++) { use(i, \"skip\"); }"
            print "function step_" n "(a, b) { return a ? b : this }"
            print "step_" n "(1)"
        }
    }'
}
: >"$work/0.js"
build "$work/0.js"
heading Statements statement
for size in 10000 100000; do
    script "$size" >"$work/$size.js"
    row "$work/$size.js"
done
