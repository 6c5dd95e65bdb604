// The benchmark: `bench time` times the library, another implementation where one is given (build.rs), the independent one and a copy of the table on the
// workloads, all in one run, and prints ratios; then ticks beside the step of the same time and check, joint steps beside the step of one of their kills and
// check, the list of open moves beside check, and the translation of Orc scripts beside the check of their tables. `bench turns [PART]` (of the workloads
// whose names have the part), `bench ticks`, `bench joint`, `bench lists` and `bench scripts` time these alone, `bench repeat NAME` runs the workloads of a
// name for three seconds, for a profiler.
mod alone;
mod operations;
mod timing;
mod turns;

use operations::{Room, LIBRARY};
use std::time::Instant;
use trial::workloads::{self, Turn};

fn main() {
    let arguments: Vec<String> = std::env::args().skip(1).collect();
    match arguments.iter().map(String::as_str).collect::<Vec<_>>()[..] {
        ["turns", ref names @ ..] => turns::time(names.first().unwrap_or(&"")),
        ["ticks"] => alone::time_ticks(),
        ["joint"] => alone::time_joint(),
        ["lists"] => alone::time_lists(),
        ["scripts"] => alone::time_scripts(),
        ["time"] => {
            turns::time("");
            alone::time_ticks();
            alone::time_joint();
            alone::time_lists();
            alone::time_scripts();
        }
        ["repeat", name] => repeat(name),
        _ => println!("usage: bench time | bench turns [PART] | bench ticks | bench joint | bench lists | bench scripts | bench repeat NAME"),
    }
}

/// The turn of a name, or the workload by itself.
fn named(name: &str) -> Option<Turn> {
    let mut turns = workloads::at_sizes(name).into_iter().chain(workloads::lists(name)).chain(workloads::short(name));
    turns.find(|turn| turn[0].name == name).or_else(|| {
        let mut alone = workloads::worst(name).into_iter().chain(workloads::joint()).chain(workloads::listed()).chain(workloads::scripts());
        alone.find(|w| w.name == name).map(|w| vec![w])
    })
}

/// The library on the workloads of a name, again and again for three seconds, beside which it is little to make them.
fn repeat(name: &str) {
    let turn = named(name).expect("the name of a workload");
    let mut room = Room { out: vec![0; alone::LIST], ..Room::new() };
    let start = Instant::now();
    while start.elapsed().as_secs() < 3 {
        match turn[0].operation {
            "joint" | "open" | "orc" => alone::run(&turn[0], &mut room.out),
            _ => LIBRARY.turn(&turn.iter().collect::<Vec<_>>(), &mut room),
        }
    }
}
