#!/bin/sh
# Times the reading of pages of 10,000, 100,000 and 1,000,000 bytes, with their elements, texts and scripts beside one another, and of
# pages of 1,000, 10,000 and 100,000 nested elements: the best of five runs, the nanoseconds for each byte, and their ratio to the
# smallest page's, which rises only with the time that the machine takes to reach memory.
. "$(dirname "$0")/frame.sh"
repository pages_bench js_core js_values dom_tree page_tokens page_reader
cat >"$work/crates/pages_bench/src/main.rt" <<'END'
//! Prints for each file that is named how many bytes it has, and the nanoseconds in which it is read as a page.
#![tactic(auto)]

use page_reader::read_page;
use std::fs;
use std::io;
use std::time::Instant;

fn time_file(rt: &HostRuntime, name: &str) -> io::Result<()> {
    let bytes = fs::read(rt, name)?;
    let start = Instant::now(rt)?;
    let page = read_page(rt.alloc(), bytes.as_slice());
    let spent = start.elapsed(rt)?;
    match page {
        Ok(_) => println!(rt; "{} {}", bytes.len(), spent.as_nanos())?,
        Err(_) => println!(rt; "refused")?,
    }
    Ok(())
}
END
main_over_files
# A page of so many bytes, or some more.
beside() {
    awk -v size="$1" 'BEGIN {
        part = "<p id=\"a\">text &amp; more</p>\r\n<script>var x = 1;</script><br><!-- c -->"
        text = "<html><body>"
        while (length(text) < size) text = text part
        printf "%s</body></html>", text
    }' >"$work/beside$1"
}
# A page with so many elements, each inside the one before.
nested() {
    awk -v count="$1" 'BEGIN {
        printf "<html>"
        for (i = 0; i < count; i++) printf "<b>"
        for (i = 0; i < count; i++) printf "</b>"
        printf "</html>"
    }' >"$work/nested$1"
}
for size in 10000 100000 1000000; do beside "$size"; done
for count in 1000 10000 100000; do nested "$count"; done
build "$work/beside10000"
heading bytes byte page
for size in 10000 100000 1000000; do row "$work/beside$size" "beside $size"; done
for count in 1000 10000 100000; do row "$work/nested$count" "nested $count"; done
