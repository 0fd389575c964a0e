//! The differential test of the two ends, of named places, of the box, alone and in a row, and of the order of two
//! ends: `calls [CALLS [SEED [WHAT]]]`. Random lists of calls on both sides, the proved ends and the models; each
//! difference is printed with the calls before it, and makes the run fail. Then streams for a bufferful, cut at every
//! place. Then a quarter as many calls of lists with named places, as many of lists for the box between an exchange and
//! three seats' ends, a quarter as many for three boxes in a row; and pairs of ends, a twentieth as many. WHAT is
//! `ends`, `named`, `box`, `row` or `order` for one of them alone; with `wrong` deliberately wrong boxes, and wrong
//! programs for named places and for the order, are tried instead of the library's, and each has to be found.

use outside::boxes::stand_in::{StandIn, FAULTS};
use outside::boxes::Side;
use outside::calls::boxes::Boxes;
use outside::calls::orders::Orders;
use outside::calls::Lists;
use outside::checkpoints;
use outside::orders;
use outside::several::Cuts;
use std::time::Instant;

/// More differences than these aren't printed.
const MOST: usize = 10;
/// From so many calls on each answer of the box and of named places has to occur.
const ENOUGH: u64 = 1_000_000;
/// Of so many calls of the ends one is spent on lists with named places.
const SHARE: u64 = 4;
/// And of so many one pair is put in order.
const PAIRS: u64 = 20;

/// The box that is tried: the library's, or without the feature `box` the model in its place.
fn side() -> Box<dyn Side> {
    #[cfg(feature = "box")]
    return Box::new(outside::boxes::Library);
    #[cfg(not(feature = "box"))]
    Box::new(StandIn::default())
}

/// What answers for named places: the library, or without the feature `checkpoints` the definitions in its place.
fn named_side() -> Box<dyn checkpoints::Side> {
    #[cfg(feature = "checkpoints")]
    return Box::new(checkpoints::Library);
    #[cfg(not(feature = "checkpoints"))]
    Box::new(checkpoints::stand_in::StandIn::default())
}

/// What answers for the order of two ends: the library, or without the feature `order` the definitions in its place.
fn order_side() -> Box<dyn orders::Side> {
    #[cfg(feature = "order")]
    return Box::new(orders::Library);
    #[cfg(not(feature = "order"))]
    Box::new(orders::stand_in::StandIn::default())
}

fn main() {
    let words: Vec<String> = std::env::args().skip(1).collect();
    let number = |i: usize, or: u64| words.get(i).map_or(or, |word| word.parse().expect("a number"));
    let (calls, seed) = (number(0, 1_000_000), number(1, 1));
    let what = words.get(2).map_or("", |word| word);
    let mut differences = 0;
    if what == "wrong" {
        differences += wrong_boxes(calls, seed);
        differences += wrong_rows(calls, seed);
        differences += wrong_names(calls, seed);
        differences += wrong_orders(calls, seed);
    }
    if what.is_empty() || what == "ends" {
        differences += ends(calls, seed);
    }
    if what.is_empty() || what == "named" {
        differences += named(calls, seed);
    }
    if what.is_empty() || what == "box" {
        differences += boxes(calls, seed);
    }
    if what.is_empty() || what == "row" {
        differences += row(calls, seed);
    }
    if what.is_empty() || what == "order" {
        differences += order(calls, seed);
    }
    println!("{differences} differences");
    if differences > 0 {
        std::process::exit(1);
    }
}

fn ends(calls: u64, seed: u64) -> usize {
    let mut lists = Lists::default();
    let (mut count, mut differences) = (0, 0);
    let start = Instant::now();
    while lists.calls < calls && differences < MOST {
        count += 1;
        if let Err(text) = lists.list(seed * 1_000_000_007 + count, 150) {
            differences += 1;
            println!("DIFFERENCE in {text}");
        }
    }
    let seconds = start.elapsed().as_secs_f64();
    println!(
        "{} calls in {count} lists, {} answers and buffers compared, {} checks of demand 3 ({} that all has arrived), {:.1} s, \
         {:.0} calls a second",
        lists.calls,
        lists.world.asked.0,
        lists.demand,
        lists.arrived,
        seconds,
        lists.calls as f64 / seconds
    );
    println!("messages sent packet by packet, and what broke the others off: {:?}", lists.transmissions);
    println!("single packets of the message wanted next, in honest lists: {:?}", lists.singles);
    let accounts = &lists.accounts;
    println!(
        "entries within their series' reserve: {}, {} of them with no other room left; refused though the log had the bytes: {}",
        accounts.within, accounts.squeezed, accounts.kept_out
    );
    for ((call, name, row), n) in &lists.answers {
        match row {
            0 => println!("  {call}: {name} {n}"),
            _ => println!("  {call}: {name} {row} {n}"),
        }
    }
    let (start, mut cuts) = (Instant::now(), Cuts::default());
    if let Err(text) = cuts.streams(seed, (calls / 5000).clamp(20, 400)) {
        differences += 1;
        println!("DIFFERENCE in {text}");
    }
    println!(
        "{} streams cut at {} places, {} calls, {} messages and {} refusals in them, {:.1} s",
        cuts.streams,
        cuts.places,
        cuts.calls,
        cuts.messages,
        cuts.refusals,
        start.elapsed().as_secs_f64()
    );
    differences
}

fn named(calls: u64, seed: u64) -> usize {
    let mut lists = Lists::of_named(named_side());
    let (mut count, mut differences) = (0, 0);
    let start = Instant::now();
    while lists.calls < calls / SHARE && differences < MOST {
        count += 1;
        if let Err(text) = lists.list(seed * 1_000_000_007 + count, 150) {
            differences += 1;
            println!("DIFFERENCE in {text}");
        }
    }
    let seconds = start.elapsed().as_secs_f64();
    let said = |call: &str, name: &str| -> u64 {
        lists.answers.iter().filter(|(one, _)| one.0 == call && one.1 == name).map(|(_, n)| n).sum()
    };
    println!(
        "named places, {}: {} calls in {count} lists, {} keeps and {} returns taken, {} and {} refused, {} answers and \
         buffers compared, {} checks of demand 3 ({} that all has arrived), {:.1} s, {:.0} calls a second",
        lists.named.as_ref().map_or(String::new(), |named| named.side.name()),
        lists.calls,
        said("Keep", "kept"),
        said("Return", "returned"),
        said("Keep", "refused"),
        said("Return", "refused"),
        lists.world.asked.0,
        lists.demand,
        lists.arrived,
        seconds,
        lists.calls as f64 / seconds
    );
    for ((call, name, row), n) in lists.answers.iter().filter(|(one, _)| one.0 == "Keep" || one.0 == "Return") {
        match row {
            0 => println!("  {call}: {name} {n}"),
            _ => println!("  {call}: {name} {row} {n}"),
        }
    }
    for (what, n) in &lists.cases {
        println!("  {what} {n}");
    }
    if calls >= ENOUGH {
        for what in lists.named_missing() {
            differences += 1;
            println!("MISSING: {what}");
        }
    }
    differences
}

fn boxes(calls: u64, seed: u64) -> usize {
    let mut boxes = Boxes::new(side());
    let (mut count, mut differences) = (0, 0);
    let start = Instant::now();
    while boxes.counts.calls < calls && differences < MOST {
        count += 1;
        if let Err(text) = boxes.list(seed * 1_000_000_007 + count, 200) {
            differences += 1;
            println!("DIFFERENCE in {text}");
        }
    }
    let (seconds, counts) = (start.elapsed().as_secs_f64(), &boxes.counts);
    println!(
        "the box, {}: {} calls in {count} lists, {} of them of the box, {} answers and buffers compared, {:.1} s, \
         {:.0} calls a second",
        boxes.worlds[0].side.name(),
        counts.calls,
        counts.of_the_box,
        boxes.asked(),
        seconds,
        counts.calls as f64 / seconds
    );
    println!(
        "{} checks of demand 3 ({} that all has arrived from above, {} at a seat); {} lists once more for one seat \
         alone, without {} calls of others",
        counts.demand, counts.arrived[0], counts.arrived[1], counts.alone, counts.left_out
    );
    for ((call, name, row), n) in &counts.answers {
        match row {
            0 => println!("  {call}: {name} {n}"),
            _ => println!("  {call}: {name} {row} {n}"),
        }
    }
    for (what, n) in &counts.seen {
        println!("  {what} {n}");
    }
    // In fewer calls some of it may be wanting.
    if calls >= ENOUGH {
        for what in counts.missing() {
            differences += 1;
            println!("MISSING: {what}");
        }
    }
    differences
}

fn row(calls: u64, seed: u64) -> usize {
    let mut boxes = Boxes::in_a_row(side, named_side());
    let (mut count, mut differences) = (0, 0);
    let start = Instant::now();
    while boxes.counts.calls < calls / SHARE && differences < MOST {
        count += 1;
        if let Err(text) = boxes.list(seed * 1_000_000_007 + count, 300) {
            differences += 1;
            println!("DIFFERENCE in {text}");
        }
    }
    let (seconds, counts) = (start.elapsed().as_secs_f64(), &boxes.counts);
    println!(
        "a row of three boxes, {}: {} calls in {count} lists, {} of them of the boxes, {} keeps and {} returns at the \
         last end, {} answers and buffers compared, {} checks of demand 3 ({} and {} that all has arrived on the first \
         line and on another, {} that the whole list has at the last end, {} of them behind returns), {:.1} s, {:.0} \
         calls a second",
        boxes.worlds[0].side.name(),
        counts.calls,
        counts.of_the_box,
        counts.kept,
        counts.returned,
        boxes.asked(),
        counts.demand,
        counts.arrived[0],
        counts.arrived[1],
        counts.whole,
        counts.whole_behind,
        seconds,
        counts.calls as f64 / seconds
    );
    if calls >= ENOUGH {
        for what in boxes.row_missing() {
            differences += 1;
            println!("MISSING in rows: {what}");
        }
    }
    differences
}

fn order(calls: u64, seed: u64) -> usize {
    let mut orders = Orders::new(order_side(), side);
    let (mut count, mut differences) = (0, 0);
    let start = Instant::now();
    while orders.pairs < calls / PAIRS && differences < MOST {
        count += 1;
        if let Err(text) = orders.list(seed * 1_000_000_007 + count) {
            differences += 1;
            println!("DIFFERENCE in {text}");
        }
    }
    println!(
        "the order of two ends, {}: {} pairs of {count} lists, {} of them by what was published too, {} answers \
         compared, {:.1} s",
        orders.side.name(),
        orders.pairs,
        orders.by_lists,
        orders.asked.0,
        start.elapsed().as_secs_f64()
    );
    for ((call, name, row), n) in &orders.answers {
        match row {
            0 => println!("  {call}: {name} {n}"),
            _ => println!("  {call}: {name} {row} {n}"),
        }
    }
    if calls >= ENOUGH {
        for what in orders.missing() {
            differences += 1;
            println!("MISSING: {what}");
        }
    }
    differences
}

/// A difference, in short.
fn found(calls: u64, text: &str) -> Option<String> {
    let what = text.split(": ").skip(1).collect::<Vec<_>>().join(": ");
    let line = what.lines().next().unwrap_or("");
    Some(format!("call {calls}, {}", line.chars().take(100).collect::<String>()))
}

/// So many calls of a wrong box; the first difference.
fn wrong_box(mut boxes: Boxes, calls: u64, seed: u64) -> Option<String> {
    let mut count = 0;
    while boxes.counts.calls < calls {
        count += 1;
        if let Err(text) = boxes.list(seed * 1_000_000_007 + count, 200) {
            return found(boxes.counts.calls, &text);
        }
    }
    None
}

/// Likewise of lists with named places.
fn wrong_name(mut lists: Lists, calls: u64, seed: u64) -> Option<String> {
    let mut count = 0;
    while lists.calls < calls {
        count += 1;
        if let Err(text) = lists.list(seed * 1_000_000_007 + count, 150) {
            return found(lists.calls, &text);
        }
    }
    None
}

/// Each wrong program for named places is found by comparison. Those that demand 3 shuts out are also found without it.
fn wrong_names(calls: u64, seed: u64) -> usize {
    let mut missed = 0;
    for fault in checkpoints::stand_in::FAULTS {
        for (how, comparing) in [("comparison", true), ("demand 3", false)] {
            if !comparing && !fault.by_demand() {
                continue;
            }
            let mut lists = Lists::of_named(Box::new(checkpoints::stand_in::StandIn { fault: Some(fault) }));
            lists.named.as_mut().expect("named places").comparing = comparing;
            match wrong_name(lists, calls, seed) {
                Some(text) => println!("found: {fault:?} by {how}: {text}"),
                None => {
                    missed += 1;
                    println!("MISSED: {fault:?} by {how}");
                }
            }
        }
    }
    missed
}

/// Each wrong order is found by comparison. Those that the laws of the order shut out are also found without it.
fn wrong_orders(calls: u64, seed: u64) -> usize {
    let mut missed = 0;
    for fault in orders::stand_in::FAULTS {
        for (how, comparing) in [("comparison", true), ("its laws", false)] {
            if !comparing && !fault.by_laws() {
                continue;
            }
            let mut orders = Orders::new(Box::new(orders::stand_in::StandIn { fault: Some(fault) }), side);
            orders.comparing = comparing;
            let first = (1..calls / PAIRS).find_map(|count| orders.list(seed * 1_000_000_007 + count).err());
            match first.and_then(|text| found(orders.pairs, &text)) {
                Some(text) => println!("found: {fault:?} by {how}: {text}"),
                None => {
                    missed += 1;
                    println!("MISSED: {fault:?} by {how}");
                }
            }
        }
    }
    missed
}

/// Each wrong box is found by comparison. Those that the statements shut out are also found without it: by what holds
/// of every box and of a seat alone, and most of them by demand 3 on the lines alone.
fn wrong_boxes(calls: u64, seed: u64) -> usize {
    let mut missed = 0;
    for fault in FAULTS {
        for (how, comparing, joining) in
            [("comparison", true, true), ("statements", false, true), ("demand 3", false, false)]
        {
            if !comparing && !fault.by_statements() {
                continue;
            }
            let mut boxes = Boxes::new(Box::new(StandIn { fault: Some(fault) }));
            boxes.worlds[0].comparing = comparing;
            (boxes.joining, boxes.parting) = (joining, joining);
            match wrong_box(boxes, calls, seed) {
                Some(text) => println!("found: {fault:?} by {how}: {text}"),
                None => {
                    missed += usize::from(how != "demand 3");
                    println!("{}: {fault:?} by {how}", if how == "demand 3" { "not found" } else { "MISSED" });
                }
            }
        }
    }
    missed
}

/// Rows of three such boxes: found without a comparison, by what the last end and each line heard alone.
fn wrong_rows(calls: u64, seed: u64) -> usize {
    let mut missed = 0;
    for fault in FAULTS.into_iter().filter(|fault| fault.by_statements()) {
        let side = || -> Box<dyn Side> { Box::new(StandIn { fault: Some(fault) }) };
        let mut boxes = Boxes::in_a_row(side, named_side());
        for world in &mut boxes.worlds {
            world.comparing = false;
        }
        (boxes.joining, boxes.parting) = (false, false);
        match wrong_box(boxes, calls, seed) {
            Some(text) => println!("found: {fault:?} in a row: {text}"),
            None => {
                missed += usize::from(fault.in_a_row());
                println!("{}: {fault:?} in a row", if fault.in_a_row() { "MISSED" } else { "not found" });
            }
        }
    }
    missed
}
