//! Runs random lists of calls through the crate and through rules.rs.
//! With the reading that errs where the crate is known to err, the two must
//! agree on every tag, word, count, flag and answer. With the rules as they
//! are, they may differ only in lists where one of those errors shows. Either
//! way the run theorem's parts (a), (b) and (c) must hold of what rules.rs
//! leaves, counted by the crate's own monoids.
//!
//! usage: agree [LISTS] [FIRST]
use rules::{Answer, Call, Errs, Log, Sheet};
use vello_encoding::*;

fn path_counts(tags: &[u8]) -> PathMonoid {
    let mut sum = PathMonoid::default();
    for four in tags.chunks(4) {
        let mut bytes = [0; 4];
        bytes[..four.len()].copy_from_slice(four);
        sum = sum.combine(&PathMonoid::new(u32::from_le_bytes(bytes)));
    }
    sum
}

fn draw_counts(tags: &[u32]) -> DrawMonoid {
    let each = tags.iter().map(|t| DrawMonoid::new(DrawTag(*t)));
    each.fold(DrawMonoid::default(), |a, b| a.combine(&b))
}

fn depth(tags: &[u32]) -> (u32, u32) {
    let each = tags.iter().map(|t| match t {
        0x49 => ClipBic::new(0, 1),
        0x21 => ClipBic::new(1, 0),
        _ => ClipBic::default(),
    });
    let sum = each.fold(ClipBic::default(), |a, b| a.combine(b));
    (sum.a, sum.b)
}

fn last_of<T: Copy>(xs: &[T], counted: u32) -> Option<T> {
    (counted > 0).then(|| xs[counted as usize - 1])
}

/// Parts (a), (b) and (c) of the run theorem.
fn theorem(s: &Sheet, log: &Log) {
    let mut padded = s.path_tags.clone();
    for _ in 0..9 {
        let c = path_counts(&padded);
        let totals = (
            c.trans_ix,
            c.pathseg_ix,
            c.pathseg_offset,
            c.style_ix,
            c.path_ix,
        );
        let lengths = (
            s.transforms.len() as u32,
            s.path_data.len() as u32,
            2 * s.styles.len() as u32,
        );
        assert_eq!(
            totals,
            (
                lengths.0,
                s.n_path_segments,
                lengths.1,
                lengths.2,
                s.n_paths
            )
        );
        padded.push(0);
    }
    let places: Vec<usize> = (0..s.path_tags.len())
        .filter(|i| s.path_tags[*i] & 3 != 0)
        .collect();
    assert_eq!(places.len(), log.segments.len());
    for (place, x) in places.iter().zip(&log.segments) {
        let tag = s.path_tags[*place];
        let c = path_counts(&s.path_tags[..*place]);
        let (at, n) = (c.pathseg_offset as usize, 2 * ((tag & 3) as usize + 1));
        assert_eq!(tag, x.tag);
        assert_eq!(s.path_data[at..at + n], x.points);
        assert_eq!(last_of(&s.styles, c.style_ix / 2), x.style);
        let numbers = |t: Option<rules::Transform>| t.map(|t| t.map(f32::from_bits));
        assert_eq!(
            numbers(last_of(&s.transforms, c.trans_ix)),
            numbers(x.transform)
        );
    }
    let d = draw_counts(&s.draw_tags);
    assert_eq!(
        (d.scene_offset, d.clip_ix),
        (s.draw_data.len() as u32, s.n_clips)
    );
    assert_eq!(depth(&s.draw_tags), (0, s.n_open_clips));
    assert_eq!(s.draw_tags.len(), log.commands.len());
    for (j, (tag, words, closes)) in log.commands.iter().enumerate() {
        assert_eq!(s.draw_tags[j], *tag);
        assert_eq!(words.len() as u32, tag >> 2 & 7);
        let at = draw_counts(&s.draw_tags[..j]).scene_offset as usize;
        assert_eq!(s.draw_data[at..at + words.len()], *words);
        if *tag == 0x21 {
            let meets =
                |i: &usize| s.draw_tags[*i] == 0x49 && depth(&s.draw_tags[i + 1..j]) == (0, 0);
            let met: Vec<usize> = (0..j).filter(meets).collect();
            assert_eq!(met, [closes.unwrap()]);
        }
    }
}

/// The list through the crate and through the rules; whether they agreed.
fn agree(calls: &[Call], errs: Errs) -> bool {
    let (mut e, mut s, mut log) = (Encoding::new(), Sheet::default(), Log::default());
    let mut same = true;
    for c in calls {
        let before = s.clone();
        let ours = s.call(&mut log, c, errs);
        if let Answer::Declined(_) = ours {
            assert_eq!(before, s);
        }
        same &= judge::call(&mut e, c) == ours && judge::sheet(&e) == s;
    }
    theorem(&s, &log);
    same
}

fn main() {
    let mut args = std::env::args()
        .skip(1)
        .map(|a| a.parse::<u64>().expect("a number"));
    let lists = args.next().unwrap_or(100_000);
    let first = args.next().unwrap_or(1);
    let all = Errs {
        lost_lines: true,
        infinite_ends: true,
    };
    let (mut calls_run, mut steps_run, mut apart) = (0, 0, [0; 3]);
    for i in first..first + lists {
        let calls = lists::list(i);
        calls_run += calls.len();
        for c in &calls {
            if let Call::Path(_, s, _) | Call::Elements(_, s) = c {
                steps_run += s.len();
            }
        }
        if !agree(&calls, all) {
            println!("list {i} differs, with the known errors taken over:\n{calls:#?}");
            std::process::exit(1);
        }
        let rows = [
            Errs {
                lost_lines: true,
                ..Errs::default()
            },
            Errs {
                infinite_ends: true,
                ..Errs::default()
            },
            Errs::default(),
        ];
        for (k, errs) in rows.into_iter().enumerate() {
            apart[k] += !agree(&calls, errs) as u64;
        }
    }
    println!("{lists} lists, {calls_run} calls, {steps_run} path steps");
    println!("with both known errors taken over: 0 lists differ");
    println!("differ by infinite ends alone: {}", apart[0]);
    println!("differ by lost lines alone: {}", apart[1]);
    println!("differ with the rules as they are: {}", apart[2]);
}
