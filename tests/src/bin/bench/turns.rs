// Check, the moves and play: the library beside the baseline, the independent implementation and a copy of the table, on the workloads of each turn one after
// the other, and on the worst cases.
use crate::operations::{Operations, Room, BASELINE, INDEPENDENT, LIBRARY};
use crate::timing::{exponent, median, medians};
use std::hint::black_box;
use trial::library;
use trial::workloads::{self, Turn, Workload, SIZES};

/// How often all is timed; the least counts, so that what disturbs one pass does not.
const PASSES: usize = 20;

/// What a turn costs, in nanoseconds for one call.
#[derive(Clone, Copy)]
struct Cost {
    library: f64,
    baseline: f64,
    copy: f64,
}

impl Cost {
    fn least(self, other: Cost) -> Cost {
        Cost { library: self.library.min(other.library), baseline: self.baseline.min(other.baseline), copy: self.copy.min(other.copy) }
    }
}

/// A turn as it is timed; what has one table is repeated, ten calls to a round.
fn items(turn: &Turn) -> Vec<&Workload> {
    turn.iter().cycle().take(turn.len().max(50)).collect()
}

/// The library, the baseline where there is one, and the copy, their rounds by turns.
fn cost(turn: &Turn) -> Cost {
    let (mut ours, mut theirs, mut room) = (Room::new(), Room::new(), Room::new());
    let mut touch = |share: &[&Workload]| share.iter().for_each(|w| room.touch(w));
    let mut out = vec![0; 32_768];
    let mut copy = |share: &[&Workload]| share.iter().for_each(|w| out[..w.table.len()].copy_from_slice(black_box(&w.table)));
    let mut library = |share: &[&Workload]| LIBRARY.turn(share, &mut ours);
    let mut baseline = |share: &[&Workload]| BASELINE.iter().for_each(|b| b.turn(share, &mut theirs));
    let [_, copy, library, baseline] = medians(&items(turn), [&mut touch, &mut copy, &mut library, &mut baseline]);
    Cost { library, baseline, copy }
}

/// All passes over some turns.
fn costs(turns: &[Turn]) -> Vec<Cost> {
    let passes: Vec<Vec<Cost>> = (0..PASSES).map(|_| turns.iter().map(cost).collect()).collect();
    let least = |i: usize| passes.iter().map(|pass| pass[i]).reduce(Cost::least).expect("a pass");
    (0..turns.len()).map(least).collect()
}

/// What an implementation answers and writes; of the replies to a list not the places, since the baseline's of 12 is another.
fn answers(of: &Operations, w: &Workload) -> (u16, Room) {
    let mut room = Room::new();
    let answer = of.run(w, &mut room);
    room.replies.chunks_mut(6).for_each(|reply| reply[2..4].fill(0));
    (answer, room)
}

/// The baseline's nanoseconds and the ratio to them, for one of so many; no ratio where the baseline answers otherwise.
fn beside(turn: &Turn, cost: &Cost, parts: f64) -> String {
    match BASELINE {
        None => "| |".into(),
        Some(b) if turn.iter().all(|w| answers(&b, w) == answers(&LIBRARY, w)) => {
            format!("{:.0} | {:.2} |", cost.baseline / parts, cost.library / cost.baseline)
        }
        Some(_) => format!("{:.0} | answers otherwise |", cost.baseline / parts),
    }
}

/// How many times slower the independent implementation is, on a few of the workloads.
fn slower(turn: &Turn, cost: &Cost) -> f64 {
    let few: Vec<&Workload> = turn.iter().take(4).collect();
    let mut room = Room::new();
    median(|| INDEPENDENT.turn(&few, &mut room)) / few.len() as f64 / cost.library
}

/// The turns and worst cases whose names have the wanted part.
pub fn time(wanted: &str) {
    let (moves, lists) = (workloads::at_sizes(wanted), workloads::lists(wanted));
    let worst: Vec<Turn> = workloads::worst(wanted).into_iter().map(|w| vec![w]).collect();
    moves.iter().chain(&worst).flatten().for_each(answered);
    let found = time_moves("Check and each move, nanoseconds for one call, on random tables in turn", &moves);
    time_moves("The worst cases, nanoseconds for one call, one table each", &worst);
    let played = time_plays("Lists of moves, nanoseconds for one move, on random tables in turn", &lists, moves_of);
    time_plays("Short lists on 10 records, nanoseconds for the whole list, on random tables in turn", &workloads::short(wanted), |_| 1.0);
    growth(moves.iter().zip(&found).chain(lists.iter().zip(&played)).collect());
}

/// The first move must have the answer that the workload names.
fn answered(w: &Workload) {
    let answer = library::step(&w.table, &w.moves[..6], &mut [0; 32_768]).answer;
    assert_eq!(answer, w.answer, "{}", w.name);
}

fn time_moves(title: &str, turns: &[Turn]) -> Vec<f64> {
    let costs = costs(turns);
    println!("{title}:\n\n| workload | records | tables | library ns | / copy | independent / library | baseline ns | library / baseline |");
    println!("|---|---|---|---|---|---|---|---|");
    for (turn, cost) in turns.iter().zip(&costs) {
        let (w, tables, copies, times) = (&turn[0], turn.len(), cost.library / cost.copy, slower(turn, cost));
        let (records, library, baseline) = (w.table.len() / 16, cost.library, beside(turn, cost, 1.0));
        println!("| {} | {records} | {tables} | {library:.0} | {copies:.1} | {times:.0} | {baseline}", w.name);
    }
    println!();
    costs.iter().map(|cost| cost.library).collect()
}

/// The moves of a list, on the average of a turn.
fn moves_of(turn: &Turn) -> f64 {
    turn.iter().map(|w| w.moves.len() / 6).sum::<usize>() as f64 / turn.len() as f64
}

/// Lists that are played, in nanoseconds for one of the parts that each has.
fn time_plays(title: &str, turns: &[Turn], parts: fn(&Turn) -> f64) -> Vec<f64> {
    let costs = costs(turns);
    println!("{title}:\n\n| list | records | tables | moves | library ns | baseline ns | library / baseline |");
    println!("|---|---|---|---|---|---|---|");
    for (turn, cost) in turns.iter().zip(&costs) {
        let (w, tables, moves, parts) = (&turn[0], turn.len(), moves_of(turn), parts(turn));
        let (records, library, baseline) = (w.table.len() / 16, cost.library / parts, beside(turn, cost, parts));
        println!("| {} | {records} | {tables} | {moves:.0} | {library:.0} | {baseline}", w.name);
    }
    println!();
    turns.iter().zip(&costs).map(|(turn, cost)| cost.library / parts(turn)).collect()
}

/// How the cost of each operation grows with the records: turns of one make stand by each other, the smallest first.
fn growth(turns: Vec<(&Turn, &f64)>) {
    println!("The power of the number of records by which the cost of each grows:\n");
    println!("| operation | exponent from the smallest to {} records | from {} to {} |\n|---|---|---|", SIZES[4], SIZES[2], SIZES[4]);
    let make = |turn: &Turn| turn[0].name.rsplit_once('-').expect("a name and a size").0.to_string();
    for sized in turns.chunk_by(|a, b| make(a.0) == make(b.0)).filter(|sized| sized.len() > 2) {
        let points: Vec<(f64, f64)> = sized.iter().map(|(turn, ns)| ((turn[0].table.len() / 16) as f64, **ns)).collect();
        println!("| {} | {:.2} | {:.2} |", make(sized[0].0), exponent(&points), exponent(&points[points.len() - 3..]));
    }
}
