#!/bin/sh
# Times calls on trees of 1,000, 10,000 and 65,536 elements, all beside one another but for the first table, where each is inside the
# one before: they are made and put in; each takes the place of the next; each is taken out; all are taken out at once; their text is
# written, and read; one is looked for by an id that none has, which walks the whole tree. The best of five runs, the nanoseconds for
# each element, and their ratio to the smallest tree's, which rises only with the time that the machine takes to reach memory.
. "$(dirname "$0")/frame.sh"
repository nodes_bench js_core js_values dom_tree
cat >"$work/crates/nodes_bench/src/main.rt" <<'END'
//! Prints for each word, a call and a number of elements after it, how many elements it went through and its nanoseconds.
#![tactic(auto)]

use dom_tree::Dom;
use js_core::Units;
use js_values::NodeId;
use std::alloc::Global;
use std::io;
use std::time::Instant;

// How many elements were put in.
fn grow(alloc: Global, dom: &mut Dom, name: &Units, count: u64, nested: bool) -> u64 {
    let mut done = 0u64;
    let mut parent = NodeId(0);
    for index in 0..count {
        let Ok(element) = dom.create_element(alloc, name) else {
            return done;
        };
        if parent.0 < dom.count()
            && element.0 < dom.count()
            && dom.insert_before(parent, element, None).is_ok()
        {
            done = done.wrapping_add(1);
        }
        if nested || index == 0 {
            parent = element;
        }
    }
    done
}

// How many elements took the place of the next.
fn replace(dom: &mut Dom) -> u64 {
    let mut done = 0u64;
    let parent = NodeId(1);
    for index in 3..dom.count() {
        let (child, old) = (NodeId(index - 1), NodeId(index));
        if old.0 < dom.count() && dom.replace_child(parent, child, old).is_ok() {
            done = done.wrapping_add(1);
        }
    }
    done
}

// How many elements were taken out.
fn remove(dom: &mut Dom) -> u64 {
    let mut done = 0u64;
    let parent = NodeId(1);
    for index in 2..dom.count() {
        let child = NodeId(index);
        if child.0 < dom.count() && dom.remove_child(parent, child).is_ok() {
            done = done.wrapping_add(1);
        }
    }
    done
}

// All elements are taken out of the first.
fn empty(dom: &mut Dom, count: u64) -> u64 {
    if dom.count() < 2 {
        return 0;
    }
    dom.remove_children(NodeId(1));
    count
}

// The text is written and read.
fn read(alloc: Global, dom: &Dom, count: u64) -> u64 {
    let mut text = Vec::new(alloc);
    if dom.count() == 0 || dom.dom_text(NodeId(0), &mut text).is_err() {
        return 0;
    }
    match dom.text_content(alloc, NodeId(0)) {
        Ok(Some(_)) => count,
        _ => 0,
    }
}

fn time_calls(rt: &HostRuntime, word: &str) -> io::Result<()> {
    let alloc = rt.alloc();
    let (call, number) = word.split_once('-').unwrap_or((word, ""));
    let count = number.parse::<u64>().unwrap_or(1);
    let (Ok(mut dom), Ok(name)) = (Dom::new(alloc), Units::from_utf8(alloc, "div")) else {
        return Ok(());
    };
    let nested = call == "nest";
    let grows = nested || call == "put";
    let mut done = 0u64;
    if !grows {
        done = grow(alloc, &mut dom, &name, count, nested);
    }
    let start = Instant::now(rt)?;
    if grows {
        done = grow(alloc, &mut dom, &name, count, nested);
    } else {
        done = match call {
            "replace" => replace(&mut dom),
            "remove" => remove(&mut dom),
            "empty" => empty(&mut dom, count),
            "read" => read(alloc, &dom, count),
            _ => if dom.find_id(&name).is_some() { 0 } else { done },
        };
    }
    let spent = start.elapsed(rt)?;
    println!(rt; "{done} {}", spent.as_nanos())
}

fn main(rt: HostRuntime) -> io::Result<()> {
    for word in std::env::args(&rt)?.skip(1) {
        time_calls(&rt, word.as_str())?;
    }
    Ok(())
}
END
build nest-10
for call in nest put replace remove empty read find; do
    heading "Elements of $call" element
    for size in 1000 10000 65536; do row "$call-$size"; done
done
