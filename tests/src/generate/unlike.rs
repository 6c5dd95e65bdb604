// A receive and an invoke that differ in anything of what 12 tells, in several things at once, or in nothing; and their meeting.
use crate::bytes;
use crate::random::Random;

const VALUES: [u16; 2] = [5, 6];
const VARIABLES: std::ops::Range<u16> = 32_768..32_773;

/// A table of the two inside the delimitations of all variables that they use, and the six bytes of their meeting.
pub fn unlike(random: &mut Random) -> (Vec<u8>, [u8; 6]) {
    let count = random.below(5) as u16;
    let pattern: Vec<u16> = (0..count).map(|i| if random.chance(30) { VARIABLES.start + i } else { random.pick(&VALUES) }).collect();
    let mut sent: Vec<u16> = pattern.iter().map(|w| if *w < VARIABLES.start && random.chance(70) { *w } else { random.pick(&VALUES) }).collect();
    if random.chance(30) {
        sent.resize(random.below(5), random.pick(&VALUES));
    }
    let mut atoms = vec![1, 2];
    if random.chance(40) {
        atoms[random.below(2)] = 3;
    }
    atoms.extend(sent);
    if random.chance(30) {
        let at = random.below(atoms.len());
        atoms[at] = VARIABLES.start + random.below(VARIABLES.len()) as u16;
    }
    let receive = bytes::receive(1, 2, &pattern, bytes::nil());
    let invoke = bytes::invoke(atoms[0], atoms[1], &atoms[2..]);
    let both = VARIABLES.fold(bytes::parallel(receive, invoke), |inside, x| bytes::delimitation(x, inside));
    let first = VARIABLES.len() + 1;
    (both, bytes::a_move(1, first, first + 2))
}
