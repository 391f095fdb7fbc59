//! Strike lists: the proved library beside a plain Rust version. Compares every list of a sweep over all families in
//! full, then times both on the same inputs and prints the ratio.
use std::hint::black_box;
use std::time::Instant;

unsafe extern "C" {
    fn posbook_strikes(family: u8, level: u32, out: *mut u32, len: usize) -> usize;
}

fn proved(family: u8, level: u32, out: &mut [u32]) -> usize {
    // The call writes at most `out.len()` numbers to `out`.
    unsafe { posbook_strikes(family, level, out.as_mut_ptr(), out.len()) }
}

const INDEX: [(u32, u32); 3] = [(0, 50), (5_000, 100), (20_000, 200)];
const TAIWAN: [(u32, u32); 4] = [(0, 1), (200, 2), (500, 5), (1_000, 10)];

fn bands(family: u8) -> &'static [(u32, u32)] {
    if family == 2 { &TAIWAN } else { &INDEX }
}

fn step(bands: &[(u32, u32)], strike: u32) -> u32 {
    bands.iter().rev().find(|(from, _)| *from <= strike).map_or(1, |(_, step)| *step)
}

/// As a Rust programmer would write it: one pass that writes while there is space, and refuses otherwise.
#[inline(never)]
fn plain(family: u8, level: u32, out: &mut [u32]) -> usize {
    if family > 2 || level == 0 || level > 10_000_000 {
        return 0;
    }
    let bands = bands(family);
    let at_or_below = |point: u32| point - point % step(bands, point);
    let at_or_above = |point: u32| {
        let step = step(bands, point);
        point.div_ceil(step) * step
    };
    let below = at_or_below(level / 100);
    let above = at_or_above(below + 1);
    let middle = if below > 0 && level - 100 * below <= 100 * above - level { below } else { above };
    let low = match at_or_below(9 * middle / 10) {
        0 => at_or_above(1),
        low => low,
    };
    let high = at_or_above((11 * middle).div_ceil(10));
    let mut count = 0;
    let mut strike = low;
    for (i, (_, step)) in bands.iter().enumerate() {
        let end = bands.get(i + 1).map_or(high + 1, |(from, _)| (*from).min(high + 1));
        while strike < end {
            let Some(place) = out.get_mut(count) else { return 0 };
            *place = strike;
            count += 1;
            strike += step;
        }
    }
    count
}

fn compare() -> u64 {
    let mut ours = [7u32; 2_048];
    let mut theirs = [7u32; 2_048];
    let mut lists = 0;
    for family in 0..3u8 {
        let mut level = 0;
        while level < 10_000_100 {
            let n = proved(family, level, &mut ours);
            let m = plain(family, level, &mut theirs);
            assert_eq!((n, &ours[..n]), (m, &theirs[..m]), "family {family}, level {level}");
            lists += 1;
            level += if level < 300_000 { 1 } else { 97 };
        }
    }
    lists
}

fn time(list: impl Fn(u8, u32, &mut [u32]) -> usize, families: &[u8]) -> f64 {
    let mut out = [0u32; 2_048];
    let mut best = f64::MAX;
    for _ in 0..9 {
        let start = Instant::now();
        let calls = 200_000u32;
        let mut all = 0;
        for i in 0..calls {
            let family = families[i as usize % families.len()];
            all += list(family, 1 + (i * 7_919) % 10_000_000, black_box(&mut out));
        }
        black_box(all);
        best = best.min(start.elapsed().as_nanos() as f64 / f64::from(calls));
    }
    best
}

fn main() {
    println!("{} lists compared in full: all equal", compare());
    for (name, families) in [("families 0 and 1", &[0u8, 1][..]), ("family 2", &[2][..]), ("all families", &[0, 1, 2][..])] {
        let ours = time(proved, families);
        let theirs = time(plain, families);
        println!("{name}: proved {ours:.1} ns a list, plain Rust {theirs:.1} ns, ratio {:.2}", ours / theirs);
    }
}
