#!/bin/sh
# Times the starts of 1,000, 10,000 and 65,536 timers, and 1,000 calls of `start`, `clear` and `fire` each where so many are live: the
# best of five runs, the nanoseconds for each call, and their ratio to the shortest queue's. The timers are intervals, so that a
# firing leaves as many; each timer that is cleared is started again. `clear` and `fire` go over all live timers.
. "$(dirname "$0")/frame.sh"
repository timers_bench js_core js_values timer_queue
cat >"$work/crates/timers_bench/src/main.rt" <<'END'
//! Prints for each word, a call and the number of live timers after it, how many calls were made and their nanoseconds.
#![tactic(auto)]

ghost use Rattle.std.specs.Prelude.{◌≤◌, length};

use js_core::TIMER_LIMIT;
use js_values::ObjId;
use std::io;
use std::time::{Duration, Instant};
use timer_queue::Queue;

const CALLS: u64 = 1000;

// Starts an interval. Periods differ, so that due times mix.
fn start(queue: &mut Queue, number: u64) -> bool {
    if queue.live().len() >= TIMER_LIMIT {
        return false;
    }
    let period = number % 977 + 1;
    queue.start(0, period, Some(period), ObjId(0)).is_ok()
}

// The queue with so many live timers.
fn filled(rt: &HostRuntime, count: u64) -> Queue {
    let mut queue = Queue::new(rt.alloc());
    for number in 0..count {
        if !start(&mut queue, number) {
            return queue;
        }
    }
    queue
}

// The time that the firings take.
fn fire(rt: &HostRuntime, queue: &mut Queue) -> io::Result<Duration> {
    let begin = Instant::now(rt)?;
    let mut clock = 0;
    for _ in 0..CALLS {
        if queue.fire(&mut clock, 1_000_000).is_none() {
            return Ok(Duration::ZERO);
        }
    }
    begin.elapsed(rt)
}

// Clears timers and starts others: the time that the one or the other takes.
fn exchange(rt: &HostRuntime, queue: &mut Queue, count: u64, starts: bool) -> io::Result<Duration> {
    let mut spent = Duration::ZERO;
    for number in 0..CALLS {
        let id = number.wrapping_mul(7919) % count.max(1) + 1;
        let begin = Instant::now(rt)?;
        queue.clear(id);
        let cleared = begin.elapsed(rt)?;
        let begin = Instant::now(rt)?;
        if !start(queue, number) {
            return Ok(Duration::ZERO);
        }
        let started = begin.elapsed(rt)?;
        spent = spent.saturating_add(if starts { started } else { cleared });
    }
    Ok(spent)
}

fn time_calls(rt: &HostRuntime, word: &str) -> io::Result<()> {
    let (call, number) = word.split_once('-').unwrap_or((word, ""));
    let count = number.parse::<u64>().unwrap_or(1);
    let begin = Instant::now(rt)?;
    let mut queue = filled(rt, count);
    let filling = begin.elapsed(rt)?;
    if call == "fill" {
        let count = queue.live().len();
        return println!(rt; "{count} {}", filling.as_nanos());
    }
    let spent = match call {
        "fire" => fire(rt, &mut queue)?,
        "clear" => exchange(rt, &mut queue, count, false)?,
        _ => exchange(rt, &mut queue, count, true)?,
    };
    println!(rt; "{CALLS} {}", spent.as_nanos())
}

fn main(rt: HostRuntime) -> io::Result<()> {
    for word in std::env::args(&rt)?.skip(1) {
        time_calls(&rt, word.as_str())?;
    }
    Ok(())
}
END
build fire-10
heading "Starts" start
for count in 1000 10000 65536; do row "fill-$count"; done
for call in start clear fire; do
    heading "Calls of $call" call "live timers"
    for count in 1000 10000 65536; do row "$call-$count" "$count"; done
done
