//! Times a polyline of 500,000 points through one path: the crate's encoder and, beside it, this library's open path
//! (see build-polyline). Both write to memory that they have already, and must leave the same entries.
//!
//! usage: polyline [RUNS]      the best of RUNS runs, 100 by default
use std::hint::black_box;
use std::time::Instant;
use vello_encoding::{Encoding, PathTag};

const POINTS: usize = 500_000;

/// The library: a slice is a pointer and a length.
mod ours {
    #[link(name = "path_bench", kind = "static")]
    unsafe extern "C" {
        fn hk_polyline(
            points: *const f32,
            n_points: usize,
            tags: *mut u8,
            n_tags: usize,
            words: *mut u32,
            n_words: usize,
            is_fill: bool,
        ) -> usize;
    }

    pub fn polyline(points: &[f32], tags: &mut [u8], words: &mut [u32], is_fill: bool) -> usize {
        unsafe {
            hk_polyline(
                points.as_ptr(),
                points.len(),
                tags.as_mut_ptr(),
                tags.len(),
                words.as_mut_ptr(),
                words.len(),
                is_fill,
            )
        }
    }
}

/// The crate, into streams that keep their space from run to run.
fn by_crate(points: &[f32], encoding: &mut Encoding, is_fill: bool) -> u32 {
    encoding.reset();
    let mut path = encoding.encode_path(is_fill);
    path.move_to(points[0], points[1]);
    for p in points[2..].chunks_exact(2) {
        path.line_to(p[0], p[1]);
    }
    path.finish(true)
}

/// Nanoseconds for each point, the best of so many runs.
fn best(runs: usize, mut run: impl FnMut()) -> f64 {
    let once = |_| {
        let start = Instant::now();
        run();
        start.elapsed().as_secs_f64()
    };
    let least = (0..runs).map(once).fold(f64::INFINITY, f64::min);
    least * 1e9 / POINTS as f64
}

/// A crawler's way: each point a step from the one before, in any direction.
fn way() -> Vec<f32> {
    let mut x = 0x2545_f491_4f6c_dd1d_u64;
    let mut step = move || {
        x ^= x << 13;
        x ^= x >> 7;
        x ^= x << 17;
        (x >> 40) as f32 / 16_777_216.0 - 0.5
    };
    let mut at = [0.0f32, 0.0];
    let mut points = Vec::with_capacity(2 * POINTS);
    for _ in 0..POINTS {
        at = [at[0] + step(), at[1] + step()];
        points.extend(at);
    }
    points
}

fn main() {
    let runs = std::env::args()
        .nth(1)
        .map_or(100, |a| a.parse().expect("a number of runs"));
    let points = way();
    println!("a polyline of {POINTS} points, best of {runs} runs, nanoseconds for each point");
    for is_fill in [true, false] {
        let mut encoding = Encoding::new();
        let mut tags = vec![0u8; POINTS + 8];
        let mut words = vec![0u32; 2 * POINTS + 16];
        let count = by_crate(&points, &mut encoding, is_fill);
        let used = ours::polyline(&points, &mut tags, &mut words, is_fill);
        assert_eq!(used, count as usize + 1, "segments and the path's tag");
        let theirs: Vec<u8> = encoding.path_tags.iter().map(|t: &PathTag| t.0).collect();
        assert!(tags[..used] == theirs[..], "tags");
        let n = encoding.path_data.len();
        assert!(words[..n] == encoding.path_data[..], "words");
        // in turn, so that both meet the machine in the same mood
        let (mut theirs, mut own) = (f64::INFINITY, f64::INFINITY);
        for _ in 0..runs {
            theirs = theirs.min(best(1, || {
                black_box(by_crate(black_box(&points), &mut encoding, is_fill));
            }));
            own = own.min(best(1, || {
                black_box(ours::polyline(black_box(&points), &mut tags, &mut words, is_fill));
            }));
        }
        let kind = if is_fill { "fill" } else { "stroke" };
        println!(
            "{kind:8} crate {theirs:7.3}   ours {own:7.3}   ratio {:5.2}",
            own / theirs
        );
    }
}
