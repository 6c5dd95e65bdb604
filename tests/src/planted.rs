// That the trial can fail: each planted fault of the independent implementation is found by generated cases alone.
use crate::closings;
use crate::compare::Reached;
use crate::differ::{self, Lists};
use crate::readings;
use crate::reference::faults::{of, plant, Of, FAULTS};
use crate::scripts;

/// Plants each fault in turn, and says at which case it was found, and shows that case if asked; the number of those that were not found. The lists of
/// open moves, Orc scripts, ticks and joint steps are compared for their own faults only, so that check, step and play have to show theirs.
pub fn run(seed: u64, cases: u64, show: bool) -> usize {
    let mut missed = 0;
    for (fault, words) in FAULTS {
        plant(Some(*fault));
        let reached = &mut Reached::new();
        let result = match of(*fault) {
            Of::Moves => differ::generated(seed, cases, Lists::LeftOut, reached),
            Of::List => differ::generated(seed, cases, Lists::Compared, reached),
            Of::Scripts => scripts::generated(seed, cases, reached),
            Of::Ticks => readings::generated(seed, cases, reached),
            Of::Joint => closings::generated(seed, cases, reached),
        };
        plant(None);
        match result {
            Err(found) => {
                println!("  found at case {}, shown by {} records: {words}", found.case, found.records);
                if show {
                    println!("{}", found.words);
                }
            }
            Ok(()) => {
                println!("  NOT FOUND: {words}");
                missed += 1;
            }
        }
    }
    missed
}
