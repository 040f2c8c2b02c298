#!/bin/sh
# Times the rule of form on uses of one variable under 1, 10 and 100 functions inside it, and on 50,000 small functions
# under as many: the best of five runs, the nanoseconds for each byte of the script, and their ratio to the first row's, which
# stays near 1 as a use costs the same whatever stands round it. The script is parsed before the clock starts.
. "$(dirname "$0")/frame.sh"
repository scopes_bench js_core global_names js_lexer js_grammar js_print expression_parser script_parser scope_analysis early_rules script_rules
cat >"$work/crates/scopes_bench/src/main.rt" <<'END'
//! Prints for each file that is named how many bytes its script has, and the nanoseconds in which the rule of form is asked of it.
#![tactic(auto)]

use js_core::{Script, Units};
use js_lexer::tokens;
use script_parser::script;
use script_rules::in_form;
use std::fs;
use std::io;
use std::time::Instant;

fn time_script(rt: &HostRuntime, length: usize, script: &Script) -> io::Result<()> {
    let start = Instant::now(rt)?;
    let found = in_form(rt.alloc(), script);
    let spent = start.elapsed(rt)?;
    match found {
        Ok(_) => println!(rt; "{} {}", length, spent.as_nanos())?,
        Err(_) => println!(rt; "out of memory")?,
    }
    Ok(())
}

fn time_file(rt: &HostRuntime, name: &str) -> io::Result<()> {
    let text = fs::read_to_string(rt, name)?;
    let Ok(units) = Units::from_utf8(rt.alloc(), text.as_str()) else {
        return Ok(());
    };
    let Ok(tokens) = tokens(rt.alloc(), &units) else {
        return Ok(());
    };
    let Ok(script) = script(rt.alloc(), tokens) else {
        return Ok(());
    };
    time_script(rt, text.len(), &script)
}
END
main_over_files

# nested DEPTH TEXT COUNT: the text so often under so many functions, inside the one that declares `v`
nested() {
    printf '(function(v){'
    yes '(function(){' | head -n "$1" | tr -d '\n'
    yes "$2" | head -n "$3" | tr -d '\n'
    yes '}());' | head -n $(($1 + 1)) | tr -d '\n'
}
: >"$work/0.js"
build "$work/0.js"
heading Bytes byte Script
for depth in 1 10 100; do
    nested "$depth" 'v;' 500000 >"$work/uses.js"
    row "$work/uses.js" "500,000 uses under $depth"
done
for depth in 1 10 100; do
    nested "$depth" '(function(){v;});' 50000 >"$work/functions.js"
    row "$work/functions.js" "50,000 functions under $depth"
done
