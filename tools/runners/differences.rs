//! Shows what the crate does on each input of docs/DIFFERENCES.md and, for
//! paths, what the rules say. Coordinates are patterns.
use peniko::kurbo::{Cap, Join, Stroke};
use rules::{Answer, Call, Errs, Log, Segment, Sheet, Step};
use std::panic::{catch_unwind, set_hook};
use vello_encoding::*;

#[derive(Clone, Copy)]
enum Drawn {
    Move(u32, u32),
    Line(u32, u32),
    Quad(u32, u32, u32, u32),
    Close,
}
use Drawn::{Close, Line, Move, Quad};

const FILL: bool = true;
const STROKE: bool = false;
const ONE: u32 = 0x3f80_0000;
const THREE: u32 = 0x4040_0000;
const FOUR: u32 = 0x4080_0000;
const MAX: u32 = 0x7f7f_ffff;
const LEAST: u32 = 0xff7f_ffff;
const INF: u32 = 0x7f80_0000;
const E: u32 = 0x2b8c_bccc;
const TWICE_E: u32 = 0x2c0c_bccc;

fn f(pattern: u32) -> f32 {
    f32::from_bits(pattern)
}

fn hex<T: std::fmt::UpperHex>(xs: impl IntoIterator<Item = T>, digits: usize) -> String {
    let words: Vec<String> = xs.into_iter().map(|x| format!("{x:0digits$X}")).collect();
    if words.is_empty() {
        "none".into()
    } else {
        words.join(" ")
    }
}

fn show(who: &str, tags: &[u8], words: &[u32], count: u32) {
    println!("  {who} path tags {}", hex(tags.iter().copied(), 2));
    println!("  {who} path data {}", hex(words.iter().copied(), 8));
    println!("  {who} count     {count}");
}

fn by_crate(is_fill: bool, steps: &[Drawn]) {
    let mut e = Encoding::new();
    let mut p = e.encode_path(is_fill);
    for s in steps {
        match *s {
            Move(x, y) => p.move_to(f(x), f(y)),
            Line(x, y) => p.line_to(f(x), f(y)),
            Quad(a, b, x, y) => p.quad_to(f(a), f(b), f(x), f(y)),
            Close => p.close(),
        }
    }
    let count = p.finish(true);
    let tags: Vec<u8> = e.path_tags.iter().map(|t| t.0).collect();
    show("crate", &tags, &e.path_data, count);
}

fn by_rules(is_fill: bool, steps: &[Drawn]) {
    let step = |s: &Drawn| match *s {
        Move(x, y) => Step::Move((f(x), f(y))),
        Line(x, y) => Step::Draw(Segment::Line((f(x), f(y)))),
        Quad(a, b, x, y) => Step::Draw(Segment::Quad((f(a), f(b)), (f(x), f(y)))),
        Close => Step::Close,
    };
    let call = Call::Path(is_fill, steps.iter().map(step).collect(), Some(true));
    let mut s = Sheet::default();
    let answer = s.call(&mut Log::default(), &call, Errs::default());
    if let Answer::Count(count) = answer {
        show("rules", &s.path_tags, &s.path_data, count);
    }
}

/// One path from beginning to end, with `finish(true)`.
fn path(name: &str, is_fill: bool, steps: &[Drawn]) {
    println!("{name}");
    by_crate(is_fill, steps);
    by_rules(is_fill, steps);
}

fn stroke(width: f64) -> Stroke {
    Stroke {
        width,
        join: Join::Bevel,
        miter_limit: 4.0,
        start_cap: Cap::Butt,
        end_cap: Cap::Butt,
    }
}

/// A panic is what the crate does, and is said.
fn guarded(name: &str, what: impl FnOnce() -> String + std::panic::UnwindSafe) {
    match catch_unwind(what) {
        Ok(said) => println!("{name}\n  {said}"),
        Err(_) => println!("{name}\n  panics"),
    }
}

fn lost_lines() {
    println!("== a line lost after a close");
    let close = [Move(0, 0), Close, Line(FOUR, 0)];
    path("fill: move 0,0; close; line 4,0", FILL, &close);
    path("stroke: the same", STROKE, &close);
    let more = [Move(0, 0), Close, Line(FOUR, 0), Line(FOUR, THREE)];
    path("fill: move 0,0; close; line 4,0; line 4,3", FILL, &more);
    path("stroke: the same", STROKE, &more);
    let first = [Line(ONE, ONE), Close, Line(FOUR, 0)];
    path("fill: line 1,1; close; line 4,0", FILL, &first);
    let short = [Move(0, 0), Line(E, 0), Close, Line(FOUR, 0)];
    path(
        "fill: move 0,0; line 2B8CBCCC,0; close; line 4,0",
        FILL,
        &short,
    );
}

fn infinite_ends() {
    println!("== a tangent end that is infinite");
    let across = [Move(LEAST, 0), Line(MAX, 0)];
    path("stroke: move FF7FFFFF,0; line 7F7FFFFF,0", STROKE, &across);
    let closed = [Move(LEAST, 0), Line(MAX, 0), Close];
    path("stroke: the same, closed", STROKE, &closed);
    let quad = [Move(LEAST, 0), Quad(MAX, 0, 0, 0)];
    path(
        "stroke: move FF7FFFFF,0; quad 7F7FFFFF,0 0,0",
        STROKE,
        &quad,
    );
    let late = [Move(LEAST, 0), Quad(LEAST, 0, MAX, 0)];
    path(
        "stroke: move FF7FFFFF,0; quad FF7FFFFF,0 7F7FFFFF,0",
        STROKE,
        &late,
    );
}

fn markers() {
    println!("== markers that are dropped");
    let ulp = [Move(ONE, 0), Line(ONE + 1, 0), Close];
    path(
        "stroke: move 3F800000,0; line 3F800001,0; close",
        STROKE,
        &ulp,
    );
    let back = [Move(0, 0), Line(TWICE_E, 0), Line(0, 0)];
    path("stroke: move 0,0; line 2C0CBCCC,0; line 0,0", STROKE, &back);
    let hairline = [Move(0, 0), Line(TWICE_E, 0), Close];
    path(
        "stroke: move 0,0; line 2C0CBCCC,0; close",
        STROKE,
        &hairline,
    );
    println!("== a closing line of no length");
    let zeros = [Move(0, 0), Line(ONE, 0), Line(0x8000_0000, 0)];
    path("fill: move 0,0; line 1,0; line -0.0,0", FILL, &zeros);
}

fn halves() {
    println!("== a signalling NaN");
    for h in [0x7c01_u16, 0xfdff, 0x7e00] {
        println!("half {h:04X} gives {:08X}", f16_to_f32(h).to_bits());
    }
}

fn refusals() {
    println!("== a stroke of no width");
    for w in [0.0, -0.0] {
        let mut e = Encoding::new();
        let answer = e.encode_stroke_style(&stroke(w));
        println!("width {w:?}: {answer}, {} styles", e.styles.len());
    }
    println!("== a width that is zero only as an f32");
    let mut e = Encoding::new();
    let answer = e.encode_stroke_style(&stroke(1e-50));
    println!(
        "width 1e-50: {answer}, written as {:?}",
        e.styles[0].line_width
    );
    println!("== an end with no clip");
    let mut e = Encoding::new();
    e.encode_end_clip();
    println!(
        "{} draw tags, {} path tags, n_paths {}, n_clips {}",
        e.draw_tags.len(),
        e.path_tags.len(),
        e.n_paths,
        e.n_clips
    );
    println!("== numbers that are not finite");
    println!("fill: move 0,0; line 7F800000,0");
    by_crate(FILL, &[Move(0, 0), Line(INF, 0)]);
    let mut e = Encoding::new();
    let mut t = Transform::IDENTITY;
    t.translation[0] = f32::NAN;
    let answers = [e.encode_transform(t), e.encode_transform(t)];
    println!(
        "one NaN transform twice: {answers:?}, {} written",
        e.transforms.len()
    );
    let mut e = Encoding::new();
    let answer = e.encode_stroke_style(&stroke(f64::NAN));
    println!("a stroke of width NaN: {answer}, {} styles", e.styles.len());
}

fn dropped_path() {
    println!("== a path that is dropped half way");
    let mut e = Encoding::new();
    let mut p = e.encode_path(FILL);
    p.move_to(0.0, 0.0);
    p.line_to(4.0, 0.0);
    drop(p);
    let tags: Vec<u8> = e.path_tags.iter().map(|t| t.0).collect();
    println!("move 0,0; line 4,0; drop");
    show("crate", &tags, &e.path_data, e.n_path_segments);
}

fn combining() {
    println!("== combine past 4,294,967,295");
    let bic = |a: (u32, u32), b: (u32, u32)| {
        let c = ClipBic::new(a.0, a.1).combine(ClipBic::new(b.0, b.1));
        (c.a, c.b)
    };
    let most = u32::MAX;
    guarded("ClipBic (4294967295, 5) with (3, 0)", move || {
        format!("{:?}", bic((most, 5), (3, 0)))
    });
    guarded("ClipBic (4294967295, 0) with (1, 0)", move || {
        format!("{:?}", bic((most, 0), (1, 0)))
    });
    guarded(
        "ClipBic (0, 4294967295), (0, 1), (1, 0), bracketed to the left",
        move || format!("{:?}", bic(bic((0, most), (0, 1)), (1, 0))),
    );
    guarded(
        "ClipBic (0, 4294967295), (0, 1), (1, 0), bracketed to the right",
        move || format!("{:?}", bic((0, most), bic((0, 1), (1, 0)))),
    );
    guarded(
        "PathMonoid with trans_ix 4294967295, and one more",
        move || {
            let m = PathMonoid {
                trans_ix: most,
                ..Default::default()
            };
            format!("{:?}", m.combine(&PathMonoid::new(0x20)))
        },
    );
    guarded(
        "DrawMonoid with path_ix 4294967295, and one more",
        move || {
            let m = DrawMonoid {
                path_ix: most,
                ..Default::default()
            };
            format!("{:?}", m.combine(&DrawMonoid::new(DrawTag::COLOR)))
        },
    );
}

fn swaps() {
    println!("== swap of the last two path tags");
    for n in 0..3 {
        guarded(&format!("{n} path tags"), move || {
            let mut e = Encoding::new();
            for i in 0..n {
                e.encode_transform(Transform {
                    matrix: [i as f32; 4],
                    translation: [0.0; 2],
                });
            }
            e.swap_last_path_tags();
            "returns".into()
        });
    }
}

fn luminance() {
    println!("== a luminance mask");
    let mut e = Encoding::new();
    e.encode_begin_clip(DrawBeginClip::luminance_mask(1.0));
    println!("crate draw data {}", hex(e.draw_data, 8));
}

fn main() {
    set_hook(Box::new(|_| {}));
    lost_lines();
    infinite_ends();
    halves();
    refusals();
    dropped_path();
    combining();
    markers();
    swaps();
    luminance();
}
