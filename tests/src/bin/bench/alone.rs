// What the baseline does not know: ticks, joint steps, the list of open moves and the translation of Orc scripts, each beside what it is made of.
use crate::timing::{exponent, median};
use std::hint::black_box;
use trial::workloads::{self, Workload, RESULT, SCRIPTS, SIZES};
use trial::{bytes, library, reference};

/// Room for any list of open moves that is timed.
pub const LIST: usize = 6 * 175_000;

/// One run of a joint step, a list of open moves or a translation.
pub fn run(w: &Workload, out: &mut [u8]) {
    match w.operation {
        "open" => _ = black_box(library::open(black_box(&w.table), out)),
        "joint" => _ = black_box(library::joint(black_box(&w.table), &stops(w), out)),
        _ => _ = black_box(library::orc(black_box(&w.table), RESULT.0, RESULT.1, out)),
    }
}

/// What ticks cost in nanoseconds, beside the check of the table and the step of the same time: a time whose clock rolls over, and no tick.
struct TickCost {
    check: f64,
    step: f64,
    ticks: f64,
    none: f64,
}

fn tick_cost(w: &Workload) -> TickCost {
    let mut out = vec![0; 32_768];
    let (earlier, later) = (u32::MAX, u32::from(bytes::word(&w.moves, 2)) - 1);
    assert_eq!(library::ticks(&w.table, earlier, later, &mut out).answer, w.answer, "{}", w.name);
    let check = median(|| _ = black_box(library::check(black_box(&w.table))));
    let step = median(|| _ = black_box(library::step(black_box(&w.table), &w.moves[..6], &mut out)));
    let ticks = median(|| _ = black_box(library::ticks(black_box(&w.table), earlier, later, &mut out)));
    let none = median(|| _ = black_box(library::ticks(black_box(&w.table), earlier, earlier, &mut out)));
    TickCost { check, step, ticks, none }
}

/// Three passes over the tables on which time is timed, of which the least counts.
pub fn time_ticks() {
    let works = workloads::timed();
    let passes: Vec<Vec<TickCost>> = (0..3).map(|_| works.iter().map(tick_cost).collect()).collect();
    println!("\nTicks beside the check of the table and the step of the same time:\n");
    println!("| ticks on | records | check ns | step ns | ticks ns | ticks / step | no tick ns | no tick / check |");
    println!("|---|---|---|---|---|---|---|---|");
    for (i, w) in works.iter().enumerate() {
        let least = |of: fn(&TickCost) -> f64| passes.iter().map(|pass| of(&pass[i])).fold(f64::INFINITY, f64::min);
        let (check, step, ticks, none) = (least(|c| c.check), least(|c| c.step), least(|c| c.ticks), least(|c| c.none));
        let (ratio, handed) = (ticks / step, none / check);
        println!("| {} | {} | {check:.0} | {step:.0} | {ticks:.0} | {ratio:.2} | {none:.0} | {handed:.2} |", w.name, w.table.len() / 16);
    }
}

/// The positions of a joint step's kills.
fn stops(w: &Workload) -> Vec<u16> {
    w.moves.chunks(6).map(|m| bytes::word(m, 2)).collect()
}

/// What a joint step costs in nanoseconds, beside the check of the table and the step of its first kill alone.
struct JointCost {
    check: f64,
    step: f64,
    joint: f64,
}

fn joint_cost(w: &Workload) -> JointCost {
    let mut out = vec![0; 32_768];
    let stops = stops(w);
    assert_eq!(library::joint(&w.table, &stops, &mut out).0.answer, w.answer, "{}", w.name);
    assert_eq!(library::step(&w.table, &w.moves[..6], &mut out).answer, 0, "{}", w.name);
    let check = median(|| _ = black_box(library::check(black_box(&w.table))));
    let step = median(|| _ = black_box(library::step(black_box(&w.table), &w.moves[..6], &mut out)));
    let joint = median(|| _ = black_box(library::joint(black_box(&w.table), &stops, &mut out)));
    JointCost { check, step, joint }
}

/// Three passes over the joint steps, of which the least counts.
pub fn time_joint() {
    let works = workloads::joint();
    let passes: Vec<Vec<JointCost>> = (0..3).map(|_| works.iter().map(joint_cost).collect()).collect();
    println!("\nA joint step beside the check of the table and the single step of its first stop:\n");
    println!("| joint step | records | kills | check ns | step ns | joint ns | joint / check | joint / step |");
    println!("|---|---|---|---|---|---|---|---|");
    for (i, w) in works.iter().enumerate() {
        let least = |of: fn(&JointCost) -> f64| passes.iter().map(|pass| of(&pass[i])).fold(f64::INFINITY, f64::min);
        let (check, step, joint) = (least(|c| c.check), least(|c| c.step), least(|c| c.joint));
        let (records, kills, whole, ratio) = (w.table.len() / 16, w.moves.len() / 6, joint / check, joint / step);
        println!("| {} | {records} | {kills} | {check:.0} | {step:.0} | {joint:.0} | {whole:.2} | {ratio:.2} |", w.name);
    }
    joint_growth(&works, &passes);
}

/// How the cost of joint steps of so many kills grows with the records.
fn joint_growth(works: &[Workload], passes: &[Vec<JointCost>]) {
    println!("\n| operation | exponent from the smallest to {} records | from {} to {} |\n|---|---|---|", SIZES[4], SIZES[2], SIZES[4]);
    for kills in workloads::KILLS {
        let sized = works.iter().enumerate().filter(|(_, w)| w.name.starts_with(&format!("joint-{kills}-")));
        let least = |i: usize| passes.iter().map(|pass| pass[i].joint).fold(f64::INFINITY, f64::min);
        let points: Vec<(f64, f64)> = sized.map(|(i, w)| ((w.table.len() / 16) as f64, least(i))).collect();
        println!("| joint-{kills} | {:.2} | {:.2} |", exponent(&points), exponent(&points[points.len() - 3..]));
    }
}

/// What a list costs beside a check of its table, in nanoseconds: with room for more than any list, and with room for just this one.
struct ListCost {
    moves: usize,
    check: f64,
    open: f64,
    exact: f64,
}

fn list_cost(w: &Workload) -> ListCost {
    let mut list = vec![0; LIST];
    let reply = library::open(&w.table, &mut list);
    assert_eq!(reply.answer, 0, "{}", w.name);
    let check = median(|| _ = black_box(library::check(black_box(&w.table))));
    let open = median(|| run(w, &mut list));
    let exact = median(|| run(w, &mut list[..6 * reply.records]));
    ListCost { moves: reply.records, check, open, exact }
}

/// Three passes over the lists, of which the least counts.
pub fn time_lists() {
    let works = workloads::listed();
    let passes: Vec<Vec<ListCost>> = (0..3).map(|_| works.iter().map(list_cost).collect()).collect();
    println!("\nThe list of open moves beside check:\n");
    println!("| list | records | moves | check ns | open ns | open / check | ns a move | open / check, just room enough |");
    println!("|---|---|---|---|---|---|---|---|");
    for (i, w) in works.iter().enumerate() {
        let least = |of: fn(&ListCost) -> f64| passes.iter().map(|pass| of(&pass[i])).fold(f64::INFINITY, f64::min);
        let (moves, check, open, exact) = (passes[0][i].moves, least(|c| c.check), least(|c| c.open), least(|c| c.exact));
        let each = if moves == 0 { String::new() } else { format!("{:.1}", open / moves as f64) };
        let (ratio, tight) = (open / check, exact / check);
        println!("| {} | {} | {moves} | {check:.0} | {open:.0} | {ratio:.2} | {each} | {tight:.2} |", w.name, w.table.len() / 16);
    }
}

/// What a translation costs beside a check of the table that it gives, in nanoseconds, by the library; and by the independent implementation.
struct ScriptCost {
    records: usize,
    check: f64,
    orc: f64,
    independent: f64,
}

fn script_cost(w: &Workload) -> ScriptCost {
    let (mut out, mut table) = (vec![0; 32_768], vec![0; 32_768]);
    let reply = library::orc(&w.table, RESULT.0, RESULT.1, &mut table);
    assert_eq!(reply.answer, w.answer, "{}", w.name);
    table.truncate(16 * reply.records);
    let check = median(|| _ = black_box(library::check(black_box(&table))));
    let orc = median(|| run(w, &mut out));
    let independent = median(|| _ = black_box(reference::orc(black_box(&w.table), RESULT.0, RESULT.1, &mut out)));
    ScriptCost { records: reply.records, check, orc, independent }
}

/// Three passes over the scripts, of which the least counts.
pub fn time_scripts() {
    let works = workloads::scripts();
    let passes: Vec<Vec<ScriptCost>> = (0..3).map(|_| works.iter().map(script_cost).collect()).collect();
    println!("\nThe translation of a script beside the check of the table that it gives:\n");
    println!("| script | records | records of the table | check ns | orc ns | orc / check | ns a record of both | independent / library |");
    println!("|---|---|---|---|---|---|---|---|");
    let mut sized = vec![];
    for (i, w) in works.iter().enumerate() {
        let least = |of: fn(&ScriptCost) -> f64| passes.iter().map(|pass| of(&pass[i])).fold(f64::INFINITY, f64::min);
        let (check, orc, independent) = (least(|c| c.check), least(|c| c.orc), least(|c| c.independent));
        let (records, written) = (w.table.len() / 8, passes[0][i].records);
        let (ratio, each, times) = (orc / check, orc / (records + written) as f64, independent / orc);
        println!("| {} | {records} | {written} | {check:.0} | {orc:.0} | {ratio:.2} | {each:.1} | {times:.0} |", w.name);
        sized.push((records as f64, orc));
    }
    let [small, middle, large] = [0, 2, 4].map(|i| SCRIPTS[i]);
    println!("\n| operation | exponent from {small} to {large} records | from {middle} to {large} |\n|---|---|---|");
    println!("| orc | {:.2} | {:.2} |", exponent(&sized[..SCRIPTS.len()]), exponent(&sized[2..SCRIPTS.len()]));
}
