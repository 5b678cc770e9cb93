//! Times the counting of 1,048,576 sources: the crate's monoids, folded as its
//! users do, and beside them the library's reduction and prefix table where the
//! program was built with `--cfg ours` (see build-bench).
//!
//! usage: counting [RUNS]      the best of RUNS runs, 30 by default
use std::hint::black_box;
use std::time::Instant;
use vello_encoding::{ClipBic, DrawMonoid, DrawTag, Monoid, PathMonoid};

const SOURCES: usize = 1_048_576;

type PathRow = [u32; 5];
type DrawRow = [u32; 4];
type ClipRow = [u32; 2];

/// The library: 0 if accepted, else the number of the refusal. A slice is a
/// pointer and a length.
#[cfg(ours)]
mod ours {
    use super::{ClipRow, DrawRow, PathRow};

    #[link(name = "count_bench", kind = "static")]
    unsafe extern "C" {
        fn hk_reduce_path(words: *const u32, len: usize, out: *mut PathRow) -> u32;
        fn hk_prefix_path(words: *const u32, len: usize, table: *mut PathRow, rows: usize) -> u32;
        fn hk_reduce_draw(tags: *const u32, len: usize, out: *mut DrawRow) -> u32;
        fn hk_reduce_clip(tags: *const u32, len: usize, out: *mut ClipRow) -> u32;
    }

    fn accepted(number: u32) {
        assert_eq!(number, 0, "the library declined");
    }

    pub fn reduce_path(words: &[u32]) -> PathRow {
        let mut out = [0; 5];
        accepted(unsafe { hk_reduce_path(words.as_ptr(), words.len(), &mut out) });
        out
    }

    pub fn prefix_path(words: &[u32], table: &mut [PathRow]) {
        let (rows, n) = (table.as_mut_ptr(), table.len());
        accepted(unsafe { hk_prefix_path(words.as_ptr(), words.len(), rows, n) });
    }

    pub fn reduce_draw(tags: &[u32]) -> DrawRow {
        let mut out = [0; 4];
        accepted(unsafe { hk_reduce_draw(tags.as_ptr(), tags.len(), &mut out) });
        out
    }

    pub fn reduce_clip(tags: &[u32]) -> ClipRow {
        let mut out = [0; 2];
        accepted(unsafe { hk_reduce_clip(tags.as_ptr(), tags.len(), &mut out) });
        out
    }
}

mod by_crate {
    use super::*;

    fn path_row(m: PathMonoid) -> PathRow {
        [
            m.trans_ix,
            m.pathseg_ix,
            m.pathseg_offset,
            m.style_ix,
            m.path_ix,
        ]
    }

    pub fn reduce_path(words: &[u32]) -> PathRow {
        let each = words.iter().map(|w| PathMonoid::new(*w));
        path_row(each.fold(PathMonoid::default(), |a, b| a.combine(&b)))
    }

    pub fn prefix_path(words: &[u32], table: &mut [PathRow]) {
        let mut before = PathMonoid::default();
        for (row, w) in table.iter_mut().zip(words) {
            *row = path_row(before);
            before = before.combine(&PathMonoid::new(*w));
        }
    }

    pub fn reduce_draw(tags: &[u32]) -> DrawRow {
        let each = tags.iter().map(|t| DrawMonoid::new(DrawTag(*t)));
        let m = each.fold(DrawMonoid::default(), |a, b| a.combine(&b));
        [m.path_ix, m.clip_ix, m.scene_offset, m.info_offset]
    }

    /// The crate has no sources for clips: the library's, taken over.
    pub fn reduce_clip(tags: &[u32]) -> ClipRow {
        let each = tags.iter().map(|t| match t {
            0x49 => ClipBic::new(0, 1),
            0x21 => ClipBic::new(1, 0),
            _ => ClipBic::new(0, 0),
        });
        let m = each.fold(ClipBic::default(), |a, b| a.combine(b));
        [m.a, m.b]
    }
}

/// Nanoseconds for each source, the best of so many runs.
fn best(runs: usize, mut run: impl FnMut()) -> f64 {
    let once = |_| {
        let start = Instant::now();
        run();
        start.elapsed().as_secs_f64()
    };
    let least = (0..runs).map(once).fold(f64::INFINITY, f64::min);
    least * 1e9 / SOURCES as f64
}

fn print(name: &str, theirs: f64, ours: Option<f64>) {
    match ours {
        Some(o) => println!(
            "{name:12} crate {theirs:7.3}   ours {o:7.3}   ratio {:5.2}",
            o / theirs
        ),
        None => println!("{name:12} crate {theirs:7.3}"),
    }
}

/// Both sides on one input: what they answer must be equal.
macro_rules! reduction {
    ($name:literal, $f:ident, $sources:expr, $runs:expr) => {{
        let s: &[u32] = $sources;
        let theirs = best($runs, || {
            black_box(by_crate::$f(black_box(s)));
        });
        #[cfg(ours)]
        let own = {
            assert_eq!(by_crate::$f(s), ours::$f(s), $name);
            Some(best($runs, || {
                black_box(ours::$f(black_box(s)));
            }))
        };
        #[cfg(not(ours))]
        let own = None;
        print($name, theirs, own);
    }};
}

fn prefix_table(words: &[u32], runs: usize) {
    let mut table = vec![[0; 5]; SOURCES];
    let theirs = best(runs, || {
        by_crate::prefix_path(black_box(words), black_box(&mut table))
    });
    #[cfg(ours)]
    let own = {
        // the same memory for both sides
        let by_crate = table.clone();
        table.fill([0; 5]);
        let ns = best(runs, || {
            ours::prefix_path(black_box(words), black_box(&mut table))
        });
        assert!(table == by_crate, "prefix table");
        Some(ns)
    };
    #[cfg(not(ours))]
    let own = None;
    print("prefix path", theirs, own);
}

/// Sources as plans have them, drawn by a small generator of numbers.
fn sources(of: &[u32]) -> impl FnMut() -> u32 {
    let mut x = 0x2545_f491_4f6c_dd1d_u64;
    move || {
        x ^= x << 13;
        x ^= x >> 7;
        x ^= x << 17;
        of[(x >> 33) as usize % of.len()]
    }
}

fn main() {
    let runs = std::env::args()
        .nth(1)
        .map_or(30, |a| a.parse().expect("a number of runs"));
    let mut tag = sources(&[0x09, 0x09, 0x0a, 0x0b, 0x0d, 0x0e, 0x10, 0x20, 0x40]);
    let words: Vec<u32> = (0..SOURCES)
        .map(|_| (0..4).fold(0, |w, i| w | tag() << (8 * i)))
        .collect();
    let mut command = sources(&[0x44, 0x2d4, 0x49, 0x21]);
    let tags: Vec<u32> = (0..SOURCES).map(|_| command()).collect();
    println!("{SOURCES} sources, best of {runs} runs, nanoseconds for each source");
    reduction!("reduce path", reduce_path, &words, runs);
    prefix_table(&words, runs);
    reduction!("reduce draw", reduce_draw, &tags, runs);
    reduction!("reduce clip", reduce_clip, &tags, runs);
}
