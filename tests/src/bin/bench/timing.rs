// Rounds that are timed, medians of them, and how a cost grows.
use std::time::Instant;

/// The median of 15 rounds of about two milliseconds each, in nanoseconds for one call.
pub fn median(mut f: impl FnMut()) -> f64 {
    f();
    let times = (2.0e6 / round(&mut f, 1)).clamp(1.0, 200_000.0) as u32;
    middle((0..15).map(|_| round(&mut f, times)).collect())
}

/// Something that is timed on several items.
type Timed<'a, T> = &'a mut dyn FnMut(&[T]);

/// The medians of five rounds of each, by turns, in nanoseconds for one item. A round has a fifth of the items, which no other round has: so each item is
/// met once, and nothing is learned from it. What is first brings them into the cache.
pub fn medians<T, const N: usize>(items: &[T], mut fs: [Timed<T>; N]) -> [f64; N] {
    let mut rounds = [const { vec![] }; N];
    for share in items.chunks(items.len() / 5) {
        for (f, found) in fs.iter_mut().zip(&mut rounds) {
            found.push(round(&mut || f(share), 1) / share.len() as f64);
        }
    }
    rounds.map(middle)
}

fn middle(mut rounds: Vec<f64>) -> f64 {
    rounds.sort_by(f64::total_cmp);
    rounds[rounds.len() / 2]
}

fn round(f: &mut impl FnMut(), times: u32) -> f64 {
    let start = Instant::now();
    (0..times).for_each(|_| f());
    start.elapsed().as_nanos().max(1) as f64 / f64::from(times)
}

/// The slope of the logarithms, by least squares: cost grows as the records to this power.
pub fn exponent(points: &[(f64, f64)]) -> f64 {
    let n = points.len() as f64;
    let logs: Vec<(f64, f64)> = points.iter().map(|(x, y)| (x.ln(), y.ln())).collect();
    let (mx, my) = (logs.iter().map(|p| p.0).sum::<f64>() / n, logs.iter().map(|p| p.1).sum::<f64>() / n);
    let over: f64 = logs.iter().map(|(x, y)| (x - mx) * (y - my)).sum();
    over / logs.iter().map(|(x, _)| (x - mx) * (x - mx)).sum::<f64>()
}
