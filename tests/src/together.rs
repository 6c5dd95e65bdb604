// Laws of joint steps that are read off the bytes alone: one kill alone is a step, several are their single steps in any order, and the load adds up.
use crate::bytes;
use crate::generate;
use crate::laws::law;
use crate::library;
use crate::random::Random;
use crate::reply::Tally;

/// The laws on one table; how many kills fired as one step.
pub fn laws(random: &mut Random, table: &[u8]) -> Result<usize, String> {
    alone(random, table)?;
    let stops = generate::stops(random, table);
    let mut out = vec![0xa5; 32_768];
    let (reply, tally) = library::joint(table, &stops, &mut out);
    let kills = if reply.answer == 0 { stops.len() } else { 0 };
    of_list(tally == Tally { kills: kills as u64, ..Tally::default() }, "the kills that fired are counted and nothing else", table, &stops)?;
    let (next, behind) = out.split_at(16 * reply.records);
    of_list(behind.iter().all(|b| *b == 0xa5), "bytes behind what is left stay", table, &stops)?;
    if reply.answer != 0 {
        of_list(next.is_empty(), "a refusal changes nothing", table, &stops)?;
        return Ok(0);
    }
    of_list(library::check(next) == reply, "what is left is well formed", table, &stops)?;
    of_list(adds_up(table, &stops, next) == Some(true), "the load before is that after, the kills, and what each alone halts", table, &stops)?;
    in_any_order(random, table, &stops, next)?;
    Ok(kills)
}

/// A law of a list of kills.
fn of_list(holds: bool, words: &str, table: &[u8], stops: &[u16]) -> Result<(), String> {
    law(holds, &format!("{words}, joint step of {stops:?}"), table, &[])
}

/// What single kills leave, one after the other, each at the place that its record has come to; nothing if one is refused.
fn singly(table: &[u8], order: &[u16]) -> Option<Vec<u8>> {
    let mut now = table.to_vec();
    let mut out = vec![0; 32_768];
    for a in order {
        let place = bytes::follow(&now, &bytes::path(table, *a as usize))?;
        let reply = library::step(&now, &bytes::a_move(0, place, 0), &mut out);
        if reply.answer != 0 {
            return None;
        }
        now = out[..16 * reply.records].to_vec();
    }
    Some(now)
}

/// Whether the load before is that after, the kills, and what each of them alone takes out of the table besides itself.
fn adds_up(table: &[u8], stops: &[u16], next: &[u8]) -> Option<bool> {
    let mut sum = bytes::load(next);
    for a in stops {
        let alone = singly(table, &[*a])?;
        let halted = bytes::load(table) - bytes::load(&alone) - 1;
        sum += 1 + halted;
    }
    Some(sum == bytes::load(table))
}

/// Single steps in any order leave what the joint step leaves, and so does a joint step of the list in that order.
fn in_any_order(random: &mut Random, table: &[u8], stops: &[u16], next: &[u8]) -> Result<(), String> {
    for _ in 0..2 {
        let mut order = stops.to_vec();
        random.shuffle(&mut order);
        of_list(singly(table, &order).is_some_and(|last| last == next), "single steps leave the same", table, &order)?;
        let mut out = vec![0; 32_768];
        let (reply, _) = library::joint(table, &order, &mut out);
        of_list(reply.answer == 0 && out[..16 * reply.records] == *next, "any order leaves the same", table, &order)?;
    }
    Ok(())
}

/// A joint step of one position, whatever stands there, has the reply and the output of the step of that kill; on a table that may be damaged.
fn alone(random: &mut Random, table: &[u8]) -> Result<(), String> {
    let mut table = table.to_vec();
    if random.chance(10) {
        table = bytes::changed(&table, random.below(255 * table.len()));
    }
    let kills = bytes::live_kills(&table);
    let any = random.below(table.len() / 16 + 2);
    let a = if kills.is_empty() || random.chance(20) { any } else { random.pick(&kills) };
    let less = random.below(table.len());
    let room = random.pick(&[table.len() + 16, table.len(), less]);
    let (mut out, mut next) = (vec![0xa5; room], vec![0xa5; room]);
    let stepped = library::step(&table, &bytes::a_move(0, a, 0), &mut next);
    let (reply, _) = library::joint(&table, &[a as u16], &mut out);
    law(reply == stepped && out == next, "a joint step of one kill is the step of that kill", &table, &bytes::a_move(0, a, 0))
}
