#!/bin/sh
# Times 10,000, 100,000 and 1,000,000 elements that are put after the last one of an array, and as many that are taken
# from its end one by one, each by a put of the length: the best of five runs, the nanoseconds for each element, and their
# ratio to the shortest array's. It rises only with the time that the machine takes to reach memory, since an element costs
# the same steps at any length.
. "$(dirname "$0")/frame.sh"
repository heap_bench js_core global_names js_values code_table object_heap
cat >"$work/crates/heap_bench/src/main.rt" <<'END'
//! Prints for each word the number of elements in it and the nanoseconds in which an array gets as many, one by one, or,
//! where the word begins with `pop-`, loses them again.
#![tactic(auto)]

use js_core::{Units, Whole};
use js_values::{ObjId, Value};
use object_heap::{Class, Heap};
use std::alloc::Global;
use std::io;
use std::time::Instant;

fn names(alloc: Global, count: u64) -> io::Result<Vec<Units>> {
    let mut names = Vec::new(alloc);
    for index in 0..count {
        let text = format!(in alloc; "{index}")?;
        let Ok(name) = Units::from_utf8(alloc, text.as_str()) else {
            return Ok(names);
        };
        names.push(name)?;
    }
    Ok(names)
}

// How many elements were put.
fn fill(heap: &mut Heap, array: ObjId, names: &[Units]) -> u64 {
    let mut done = 0u64;
    for name in names {
        if heap.put(array, name, Value::Null).is_ok() {
            done = done.wrapping_add(1);
        }
    }
    done
}

// How many elements were taken from the end.
fn empty(heap: &mut Heap, array: ObjId, length: &Units, count: u64) -> u64 {
    let mut done = 0u64;
    for gone in 0..count {
        let Ok(left) = i64::try_from(count - 1 - gone) else {
            return done;
        };
        let Some(left) = Whole::new(left) else {
            return done;
        };
        if heap.put(array, length, Value::Num(left)).is_ok() {
            done = done.wrapping_add(1);
        }
    }
    done
}

fn time_array(rt: &HostRuntime, count: u64, pops: bool) -> io::Result<()> {
    let names = names(rt.alloc(), count)?;
    let mut heap = Heap::new(rt.alloc());
    let Ok(array) = heap.alloc(Class::List, None) else {
        return Ok(());
    };
    let Ok(length) = Units::from_utf8(rt.alloc(), "length") else {
        return Ok(());
    };
    let start = Instant::now(rt)?;
    let done = fill(&mut heap, array, names.as_slice());
    let spent = start.elapsed(rt)?;
    if !pops {
        return println!(rt; "{done} {}", spent.as_nanos());
    }
    let start = Instant::now(rt)?;
    let done = empty(&mut heap, array, &length, count);
    let spent = start.elapsed(rt)?;
    println!(rt; "{done} {}", spent.as_nanos())
}

fn time_count(rt: &HostRuntime, number: &str, pops: bool) -> io::Result<()> {
    match number.parse::<u64>() {
        Ok(count) => time_array(rt, count, pops),
        Err(_) => Ok(()),
    }
}

fn time_word(rt: &HostRuntime, word: &str) -> io::Result<()> {
    match word.strip_prefix("pop-") {
        Some(number) => time_count(rt, number, true),
        None => time_count(rt, word, false),
    }
}

fn main(rt: HostRuntime) -> io::Result<()> {
    for word in std::env::args(&rt)?.skip(1) {
        time_word(&rt, word.as_str())?;
    }
    Ok(())
}
END
build 1
heading Pushes element
for count in 10000 100000 1000000; do row "$count"; done
heading Pops element
for count in 10000 100000 1000000; do row "pop-$count"; done
