//! Registers: the proved library beside plain Rust, at 4,096 rows: a pair of `Vec`s, and a `BTreeMap`. Compares the
//! answers of each run, then times all three on the same inputs and prints the ratios.
use std::collections::BTreeMap;
use std::hint::black_box;
use std::time::Instant;

unsafe extern "C" {
    fn posbook_register_find(room: usize, keys: *const u64, n: usize, asked: *const u64, m: usize) -> u64;
    fn posbook_register_toggle(room: usize, keys: *const u64, n: usize, turns: *const u64, m: usize) -> u64;
    fn posbook_register_cut(room: usize, keys: *const u64, n: usize, cuts: *const u64, m: usize) -> u64;
}

const ROOM: usize = 4_096;

type Run = fn(&[u64], &[u64]) -> u64;

fn proved_find(keys: &[u64], asked: &[u64]) -> u64 {
    // The calls read the two slices, and keep nothing.
    unsafe { posbook_register_find(ROOM, keys.as_ptr(), keys.len(), asked.as_ptr(), asked.len()) }
}

fn proved_toggle(keys: &[u64], turns: &[u64]) -> u64 {
    unsafe { posbook_register_toggle(ROOM, keys.as_ptr(), keys.len(), turns.as_ptr(), turns.len()) }
}

fn proved_cut(keys: &[u64], cuts: &[u64]) -> u64 {
    unsafe { posbook_register_cut(ROOM, keys.as_ptr(), keys.len(), cuts.as_ptr(), cuts.len()) }
}

/// Keys beside contents, as a Rust programmer would write them.
struct Plain {
    keys: Vec<u64>,
    contents: Vec<u64>,
}

impl Plain {
    fn filled(keys: &[u64]) -> Plain {
        let mut plain = Plain { keys: Vec::with_capacity(ROOM), contents: Vec::with_capacity(ROOM) };
        for key in keys {
            plain.put(*key, *key);
        }
        plain
    }

    fn put(&mut self, key: u64, content: u64) {
        match self.keys.binary_search(&key) {
            Ok(i) => self.contents[i] = content,
            Err(i) if self.keys.len() < ROOM => {
                self.keys.insert(i, key);
                self.contents.insert(i, content);
            }
            Err(_) => {}
        }
    }

    fn take(&mut self, key: u64) -> Option<u64> {
        let i = self.keys.binary_search(&key).ok()?;
        self.keys.remove(i);
        Some(self.contents.remove(i))
    }

    fn cut(&mut self, a: u64, b: u64) -> usize {
        let from = self.keys.binary_search(&a).unwrap_or_else(|i| i);
        let to = self.keys.binary_search(&b).unwrap_or_else(|i| i).max(from);
        self.keys.drain(from..to);
        self.contents.drain(from..to);
        to - from
    }
}

fn plain_find(keys: &[u64], asked: &[u64]) -> u64 {
    let plain = Plain::filled(keys);
    asked.iter().fold(0, |sum: u64, key| sum.wrapping_add(plain.keys.binary_search(key).map_or(0, |i| plain.contents[i])))
}

fn plain_toggle(keys: &[u64], turns: &[u64]) -> u64 {
    let mut plain = Plain::filled(keys);
    turns.iter().fold(0, |sum: u64, key| match plain.take(*key) {
        Some(content) => sum.wrapping_add(content),
        None => {
            plain.put(*key, *key);
            sum
        }
    })
}

fn plain_cut(keys: &[u64], cuts: &[u64]) -> u64 {
    let mut plain = Plain::filled(keys);
    cuts.iter().fold(0, |sum: u64, a| sum.wrapping_add(plain.cut(*a, a.saturating_add(64)) as u64))
}

fn tree_filled(keys: &[u64]) -> BTreeMap<u64, u64> {
    keys.iter().map(|key| (*key, *key)).collect()
}

fn tree_find(keys: &[u64], asked: &[u64]) -> u64 {
    let tree = tree_filled(keys);
    asked.iter().fold(0, |sum: u64, key| sum.wrapping_add(tree.get(key).copied().unwrap_or(0)))
}

fn tree_toggle(keys: &[u64], turns: &[u64]) -> u64 {
    let mut tree = tree_filled(keys);
    turns.iter().fold(0, |sum: u64, key| match tree.remove(key) {
        Some(content) => sum.wrapping_add(content),
        None => {
            if tree.len() < ROOM {
                tree.insert(*key, *key);
            }
            sum
        }
    })
}

fn tree_cut(keys: &[u64], cuts: &[u64]) -> u64 {
    let mut tree = tree_filled(keys);
    cuts.iter().fold(0, |sum: u64, a| {
        let mut stretch = tree.split_off(a);
        let mut rest = stretch.split_off(&a.saturating_add(64));
        tree.append(&mut rest);
        sum.wrapping_add(stretch.len() as u64)
    })
}

/// The time of one of `more`, without that of filling.
fn time(run: Run, keys: &[u64], more: &[u64]) -> f64 {
    let best = |more: &[u64]| {
        (0..100).fold(f64::MAX, |best: f64, _| {
            let start = Instant::now();
            black_box(run(black_box(keys), black_box(more)));
            best.min(start.elapsed().as_nanos() as f64)
        })
    };
    (best(more) - best(&[])) / more.len() as f64
}

fn compare(name: &str, runs: [Run; 3], keys: &[u64], more: &[u64]) {
    let answers = runs.map(|run| run(keys, more));
    assert!(answers[0] == answers[1] && answers[0] == answers[2], "{name}: {answers:?}");
    let [ours, plain, tree] = runs.map(|run| time(run, keys, more));
    println!("{name}: proved {ours:.1} ns, vectors {plain:.1} ns (ratio {:.2}), tree {tree:.1} ns (ratio {:.2})", ours / plain, ours / tree);
}

fn main() {
    // Keys a step apart, so that half of what is looked up does not stand.
    let keys: Vec<u64> = (0..ROOM as u64).map(|i| i * 10).collect();
    let mut state = 1u64;
    let mut next = |below: u64| {
        state = state.wrapping_mul(6_364_136_223_846_793_005).wrapping_add(1_442_695_040_888_963_407);
        (state >> 33) % below
    };
    let asked: Vec<u64> = (0..200_000).map(|_| next(2 * ROOM as u64) * 5).collect();
    let turns: Vec<u64> = (0..20_000).map(|_| next(ROOM as u64) * 10).collect();
    let cuts: Vec<u64> = (0..400).map(|_| next(ROOM as u64) * 10).collect();
    compare("look-up", [proved_find, plain_find, tree_find], &keys, &asked);
    compare("put and take in mixed order", [proved_toggle, plain_toggle, tree_toggle], &keys, &turns);
    compare("stretch out", [proved_cut, plain_cut, tree_cut], &keys, &cuts);
}
