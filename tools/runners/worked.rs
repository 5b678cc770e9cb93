//! The worked sheets of docs/RULES.md: each must hold of rules.rs and, where
//! the crate does not err, of the crate.
use rules::{Call, Errs, Log, Segment, Sheet, Step};
use vello_encoding::*;

const E: u32 = 0x2b8c_bccc;
const FILL: bool = true;
const STROKE: bool = false;

fn f(pattern: u32) -> f32 {
    f32::from_bits(pattern)
}

fn line(x: f32, y: f32) -> Step {
    Step::Draw(Segment::Line((x, y)))
}

/// A path's tags, words and count: by the rules, and by the crate.
fn both(fill: bool, steps: &[Step], marker: bool) -> [(Vec<u8>, Vec<u32>, u32); 2] {
    let call = Call::Path(fill, steps.to_vec(), Some(marker));
    let (mut s, mut e) = (Sheet::default(), Encoding::new());
    s.call(&mut Log::default(), &call, Errs::default());
    judge::call(&mut e, &call);
    [s, judge::sheet(&e)].map(|s| (s.path_tags, s.path_data, s.n_path_segments))
}

fn expect(name: &str, got: &(Vec<u8>, Vec<u32>, u32), tags: &[u8], words: usize, count: u32) {
    assert_eq!(
        (&got.0[..], got.1.len(), got.2),
        (tags, words, count),
        "{name}"
    );
    println!("{name}: holds");
}

fn paths() {
    let origin = Step::Move((0.0, 0.0));
    let triangle = [origin, line(4.0, 0.0), line(4.0, 3.0)];
    for got in both(FILL, &triangle, true) {
        expect("a filled triangle", &got, &[0x09, 0x09, 0x0d, 0x10], 8, 3);
    }
    for got in both(STROKE, &[origin, line(3.0, 0.0)], true) {
        expect("a stroked line", &got, &[0x09, 0x0e, 0x10], 8, 2);
        assert_eq!(got.1[6..], [0x3f80_0000, 0]);
    }
    let [ours, theirs] = both(FILL, &[origin, Step::Close, line(4.0, 0.0)], true);
    expect(
        "a line after a close, by the rules",
        &ours,
        &[0x09, 0x0d, 0x10],
        6,
        2,
    );
    expect("a line after a close, by the crate", &theirs, &[], 0, 0);
    for got in both(STROKE, &[origin, line(f(E), 0.0)], true) {
        expect("a line as long as E", &got, &[], 0, 0);
    }
    for got in both(FILL, &[origin, line(f(E + 1), 0.0)], true) {
        expect("a line just longer than E", &got, &[0x09, 0x0d, 0x10], 6, 2);
    }
    for got in both(FILL, &[origin, line(1.0, 0.0), line(-0.0, 0.0)], false) {
        expect(
            "a closing line of no length",
            &got,
            &[0x09, 0x09, 0x0d],
            8,
            3,
        );
    }
    for got in both(STROKE, &[origin, line(2.0 * f(E), 0.0), Step::Close], false) {
        expect("a closed hairline", &got, &[0x09, 0x0d], 6, 2);
    }
}

fn counts() {
    let m = PathMonoid::new(0x0909_4020);
    let row = [
        m.trans_ix,
        m.pathseg_ix,
        m.pathseg_offset,
        m.style_ix,
        m.path_ix,
    ];
    assert_eq!(row, [1, 2, 4, 2, 0]);
    let calls = [
        Call::Begin(0, 3, 1.0),
        Call::Draw(0x44, vec![0xff00_00ff]),
        Call::End,
    ];
    let mut e = Encoding::new();
    for c in &calls {
        judge::call(&mut e, c);
    }
    let sum = e.draw_tags.iter().fold(DrawMonoid::default(), |a, t| {
        a.combine(&DrawMonoid::new(*t))
    });
    let row = [sum.path_ix, sum.clip_ix, sum.scene_offset, sum.info_offset];
    assert_eq!(row, [3, 2, 3, 2]);
    assert_eq!(e.draw_data, [3, 0x3f80_0000, 0xff00_00ff]);
    println!("the word 09094020, and a clip with a colour: hold");
}

fn halves() {
    let rows = [
        (0x3f80_1000, 0x3c01),
        (0x3300_0000, 1),
        (0x477f_efff, 0x7bff),
        (0x477f_f000, 0x7c00),
    ];
    for (pattern, half) in rows {
        assert_eq!(
            (f32_to_f16(f(pattern)), rules::half_of(pattern)),
            (half, half)
        );
    }
    println!("four halves: hold");
}

fn main() {
    assert_eq!(
        (1e-12_f32.to_bits(), (1.0_f32 / 3.0).to_bits()),
        (E, rules::T.to_bits())
    );
    paths();
    counts();
    halves();
}
