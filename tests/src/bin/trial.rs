// The trial: `trial [SEED [CASES]]` runs all of it; `trial sample` a part of the damage, for a memory checker; `trial show` the planted faults, each
// with the smallest case that shows it; `trial small` every table and script of a record more.
use std::process::exit;
use std::time::Instant;
use trial::compare::Reached;
use trial::damage::{self, Extent};
use trial::lists::Listed;
use trial::{closings, differ, laws, planted, readings, scripts, small};

const CASES: u64 = 100_000;

fn main() {
    let arguments: Vec<String> = std::env::args().skip(1).collect();
    if arguments.first().is_some_and(|a| a == "sample") {
        return sample();
    }
    if arguments.first().is_some_and(|a| a == "show") {
        return faulty(1, CASES, true);
    }
    if arguments.first().is_some_and(|a| a == "small") {
        return every_small(SMALL + 1);
    }
    let number = |i: usize, default| arguments.get(i).map_or(default, |a: &String| a.parse().expect("a number"));
    let (seed, cases) = (number(0, 1), number(1, CASES));
    let start = Instant::now();
    differential(seed, cases);
    translated(seed, cases);
    ticked(seed, cases);
    joined(seed, cases);
    every_small(SMALL);
    damaged(seed);
    lawful(seed);
    faulty(seed, cases.max(CASES), false);
    println!("trial: all passed in {} s", start.elapsed().as_secs());
}

/// A disagreement ends the trial.
fn stop(found: differ::Found) -> ! {
    println!("DISAGREEMENT at case {}\n{}", found.case, found.words);
    exit(1)
}

fn differential(seed: u64, cases: u64) {
    println!("differential: the papers' nights and {cases} generated cases, seed {seed}");
    let mut reached = Reached::new();
    if let Err(found) = differ::run(seed, cases, &mut reached) {
        stop(found);
    }
    report(&reached);
}

const KINDS: [&str; 6] = ["kill", "communication", "timeout", "time", "unfolding", "extrusion"];

/// The counts of every refusal, of every place of 12 and of every kind accepted; none may be 0.
fn report(reached: &Reached) {
    println!("  {} steps and {} checks and loads agree in reply, place, records and every byte", reached.steps, reached.checks);
    println!("  {} plays of {} moves agree in reply, tally and every byte of both buffers", reached.plays, reached.played);
    let Listed { lists, tables, .. } = reached.listed;
    println!("  {lists} lists of the open moves of {tables} tables agree in reply and every byte of the buffer");
    let mut missing = vec![];
    for answer in (1..=7).chain(10..=22) {
        println!("  refusal {answer:2}: {}", reached.answers[answer]);
        if reached.answers[answer] == 0 {
            missing.push(format!("refusal {answer}"));
        }
    }
    for (place, count) in reached.differences.iter().enumerate() {
        println!("  refusal 12 at {place}: {count}");
        if *count == 0 {
            missing.push(format!("refusal 12 at {place}"));
        }
    }
    for (kind, count) in KINDS.iter().zip(reached.accepted) {
        println!("  accepted {kind}: {count}");
        if count == 0 {
            missing.push(format!("accepted {kind}"));
        }
    }
    missing.extend(uncounted(reached.listed.counts()));
    all_reached(missing);
}

/// Prints counts; those that are 0.
fn uncounted(counts: Vec<(String, u64)>) -> Vec<String> {
    counts.iter().for_each(|(words, count)| println!("  {words}: {count}"));
    counts.into_iter().filter(|(_, count)| *count == 0).map(|(words, _)| words).collect()
}

fn all_reached(missing: Vec<String>) {
    if !missing.is_empty() {
        println!("NOT REACHED: {}", missing.join(", "));
        exit(1);
    }
}

/// Generated cases of an operation that is compared by itself, and what they reached.
fn by_itself(seed: u64, cases: u64, generated: fn(u64, u64, &mut Reached) -> Result<(), differ::Found>) -> Reached {
    let mut reached = Reached::new();
    if let Err(found) = generated(seed, cases, &mut reached) {
        stop(found);
    }
    reached
}

fn translated(seed: u64, cases: u64) {
    println!("Orc scripts: {cases} generated ones, seed {seed}");
    let reached = by_itself(seed, cases, scripts::generated);
    println!("  {} translations agree in reply, place, records and every byte; each accepted table passes check", reached.translations.calls);
    all_reached(uncounted(reached.translations.counts()));
}

fn ticked(seed: u64, cases: u64) {
    println!("ticks: {cases} generated pairs of readings, seed {seed}");
    let reached = by_itself(seed, cases, readings::generated);
    println!("  {} pairs of readings agree in reply, place, records and every byte", reached.ticking.calls);
    all_reached(uncounted(reached.ticking.counts()));
}

fn joined(seed: u64, cases: u64) {
    println!("joint steps: {cases} generated lists of kills, seed {seed}");
    let reached = by_itself(seed, cases, closings::generated);
    println!("  {} joint steps agree in reply, place, records, tally and every byte", reached.closed.calls);
    all_reached(uncounted(reached.closed.counts()));
}

/// How many records the tables and scripts of the small scope have at most.
const SMALL: usize = 5;

fn every_small(most: usize) {
    let mut reached = Reached::new();
    if let Err(fault) = small::run(most, &mut reached).and_then(|()| scripts::small(most, &mut reached)) {
        stop(differ::found(0, fault));
    }
    let accepted: u64 = reached.accepted.iter().sum();
    println!(
        "small scope: all {} tables of up to {most} records over a few atoms, {} moves on them, {accepted} accepted, {} lists, {} pairs of readings, {} joint steps, and {} translations of all scripts of up to {most} records: agree",
        reached.checks, reached.steps, reached.listed.lists, reached.ticking.calls, reached.closed.calls, reached.translations.calls
    );
}

fn damaged(seed: u64) {
    let mut reached = Reached::new();
    if let Err(fault) = damage::run(seed, Extent::All, &mut reached) {
        stop(differ::found(0, fault));
    }
    let Reached { steps, checks, plays, played, listed: Listed { lists, .. }, .. } = reached;
    let [calls, readings, joint] = [reached.translations.calls, reached.ticking.calls, reached.closed.calls];
    println!(
        "damage: {steps} steps, {checks} checks and loads, {lists} lists, {calls} translations, {readings} pairs of readings, {joint} joint steps and {plays} plays of {played} moves on damaged bytes and at every length agree"
    );
}

fn sample() {
    let mut reached = Reached::new();
    if let Err(fault) = damage::run(1, Extent::Sample, &mut reached) {
        stop(differ::found(0, fault));
    }
    let Reached { steps, checks, plays, listed: Listed { lists, .. }, .. } = reached;
    let [calls, readings, joint] = [reached.translations.calls, reached.ticking.calls, reached.closed.calls];
    println!("sample: {steps} steps, {checks} checks, {lists} lists, {calls} translations, {readings} pairs of readings, {joint} joint steps and {plays} plays on damaged bytes agree");
}

fn lawful(seed: u64) {
    match laws::run(seed, 600) {
        Ok(seen) => println!(
            "laws: {} nights, {} accepted moves ({} kills), {} refused, {} moves of {} lists: demand 3's inequality, play as its steps, well-formed successors, untouched outputs, halting, time, exactly the accepted moves listed; {} clocks: readings moved on, ticks as a step, time adds up; {} joint steps, {} of several kills: one kill as a step, several as single steps in any order, load adds up",
            seen.nights, seen.accepted, seen.kills, seen.refused, seen.listed, seen.lists, seen.clocks, seen.joint, seen.several
        ),
        Err(words) => {
            println!("{words}");
            exit(1);
        }
    }
}

fn faulty(seed: u64, cases: u64, show: bool) {
    println!("planted faults: each wrong reading in the independent implementation is found");
    let missed = planted::run(seed, cases, show);
    if missed > 0 {
        println!("{missed} planted faults were not found");
        exit(1);
    }
}
