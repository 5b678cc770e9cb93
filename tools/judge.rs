//! The crate's side of a comparison: a call of rules.rs made of the crate, and
//! what the crate has then.
use peniko::kurbo::{Cap, Join, PathEl, Point};
use rules::{Answer, Call, Segment, Sheet, Step};
use vello_encoding::*;

fn wide(p: rules::Point) -> Point {
    Point {
        x: p.0.into(),
        y: p.1.into(),
    }
}

fn element(s: Step) -> PathEl {
    match s {
        Step::Move(p) => PathEl::MoveTo(wide(p)),
        Step::Draw(Segment::Line(p)) => PathEl::LineTo(wide(p)),
        Step::Draw(Segment::Quad(p, q)) => PathEl::QuadTo(wide(p), wide(q)),
        Step::Draw(Segment::Cubic(p, q, r)) => PathEl::CurveTo(wide(p), wide(q), wide(r)),
        Step::Close => PathEl::ClosePath,
    }
}

fn draw_step(p: &mut PathEncoder<'_>, s: Step) {
    match s {
        Step::Move(a) => p.move_to(a.0, a.1),
        Step::Draw(Segment::Line(a)) => p.line_to(a.0, a.1),
        Step::Draw(Segment::Quad(a, b)) => p.quad_to(a.0, a.1, b.0, b.1),
        Step::Draw(Segment::Cubic(a, b, c)) => p.cubic_to(a.0, a.1, b.0, b.1, c.0, c.1),
        Step::Close => p.close(),
    }
}

/// The same call of the crate. Its false for a stroke and its silence for an
/// end are put as the refusals 4 and 5.
pub fn call(e: &mut Encoding, call: &Call) -> Answer {
    match call {
        Call::Reset => e.reset(),
        Call::Force => e.force_next_transform_and_style(),
        Call::Transform([a, b, c, d, x, y]) => {
            return Answer::Truth(e.encode_transform(Transform {
                matrix: [*a, *b, *c, *d],
                translation: [*x, *y],
            }));
        }
        Call::Fill(false) => e.encode_fill_style(peniko::Fill::NonZero),
        Call::Fill(true) => e.encode_fill_style(peniko::Fill::EvenOdd),
        Call::Stroke(s) => {
            let caps = [Cap::Butt, Cap::Square, Cap::Round];
            let stroke = peniko::kurbo::Stroke {
                width: s.width.into(),
                join: [Join::Bevel, Join::Miter, Join::Round][s.join as usize],
                miter_limit: s.miter_limit.into(),
                start_cap: caps[s.start_cap as usize],
                end_cap: caps[s.end_cap as usize],
            };
            let accepted = e.encode_stroke_style(&stroke);
            return if accepted {
                Answer::Truth(true)
            } else {
                Answer::Declined(4)
            };
        }
        Call::Path(fill, steps, end) => {
            let before = e.clone();
            let mut p = e.encode_path(*fill);
            for s in steps {
                draw_step(&mut p, *s);
            }
            match end {
                Some(marker) => return Answer::Count(p.finish(*marker)),
                None => *e = before,
            }
        }
        Call::Elements(fill, steps) => {
            return Answer::Truth(e.encode_path_elements(steps.iter().map(|s| element(*s)), *fill));
        }
        Call::EmptyShape => e.encode_empty_shape(),
        Call::Draw(0x44, words) => e.encode_color(DrawColor { rgba: words[0] }),
        Call::Draw(_, w) => {
            let n = |i: usize| f32::from_bits(w[i]);
            e.encode_blurred_rounded_rect(DrawColor { rgba: w[0] }, n(1), n(2), n(3), n(4));
        }
        Call::Begin(mix, compose, alpha) => {
            let blend = peniko::BlendMode {
                mix: *mix,
                compose: *compose,
            };
            e.encode_begin_clip(DrawBeginClip::new(blend, *alpha));
        }
        Call::End => {
            let open = e.n_open_clips;
            e.encode_end_clip();
            if open == 0 {
                return Answer::Declined(5);
            }
        }
    }
    Answer::Nothing
}

/// The streams, counts and flags of the crate.
pub fn sheet(e: &Encoding) -> Sheet {
    let bits = |t: &Transform| {
        let (m, x) = (t.matrix, t.translation);
        [m[0], m[1], m[2], m[3], x[0], x[1]].map(f32::to_bits)
    };
    Sheet {
        path_tags: e.path_tags.iter().map(|t| t.0).collect(),
        path_data: e.path_data.clone(),
        draw_tags: e.draw_tags.iter().map(|t| t.0).collect(),
        draw_data: e.draw_data.clone(),
        transforms: e.transforms.iter().map(bits).collect(),
        styles: e
            .styles
            .iter()
            .map(|s| (s.flags_and_miter_limit, s.line_width.to_bits()))
            .collect(),
        n_paths: e.n_paths,
        n_path_segments: e.n_path_segments,
        n_clips: e.n_clips,
        n_open_clips: e.n_open_clips,
        flags: e.flags,
    }
}
