//! Random lists of calls, each made from its number alone.
use rules::{Call, Segment, Step, Stroke};

struct Dice(u64);

impl Dice {
    fn new(n: u64) -> Self {
        let mut d = Dice(n.wrapping_mul(0x9e37_79b9_7f4a_7c15) | 1);
        for _ in 0..4 {
            d.next();
        }
        d
    }
    fn next(&mut self) -> u64 {
        self.0 ^= self.0 << 13;
        self.0 ^= self.0 >> 7;
        self.0 ^= self.0 << 17;
        self.0
    }
    fn below(&mut self, n: u64) -> u64 {
        (self.next() >> 11) % n
    }
    fn one_in(&mut self, n: u64) -> bool {
        self.below(n) == 0
    }
    fn of<T: Copy>(&mut self, xs: &[T]) -> T {
        xs[self.below(xs.len() as u64) as usize]
    }
    fn pattern(&mut self) -> f32 {
        loop {
            let x = f32::from_bits(self.next() as u32);
            if x.is_finite() {
                return x;
            }
        }
    }
}

const COMMON: [u32; 6] = [
    0, 0x3f800000, 0x40400000, 0x40800000, 0xbf800000, 0x80000000,
];
const SMALL: [u32; 12] = [
    0, 0x80000000, 0x2b8cbccc, 0x2b8cbccd, 0x2b8cbccb, 0xab8cbccc, 0x2c0cbccc, 0x2c0cbccd,
    0x2b0cbccc, 0x2c533333, 0x1, 0x2bd31999,
];
const NEAR: [u32; 5] = [0x3f800000, 0x3f800001, 0x3f800002, 0x3f7fffff, 0x3f800003];
const LARGE: [u32; 6] = [
    0x7f7fffff, 0xff7fffff, 0x7f000000, 0xff000000, 0, 0x7effffff,
];

#[derive(Clone, Copy)]
enum Alphabet {
    Common,
    Small,
    Near,
    Large,
    All,
}

impl Alphabet {
    fn number(self, d: &mut Dice) -> f32 {
        match self {
            Alphabet::Common => f32::from_bits(d.of(&COMMON)),
            Alphabet::Small => f32::from_bits(d.of(&SMALL)),
            Alphabet::Near => f32::from_bits(d.of(&NEAR)),
            Alphabet::Large => f32::from_bits(d.of(&LARGE)),
            Alphabet::All => d.pattern(),
        }
    }
    fn point(self, d: &mut Dice) -> rules::Point {
        let y = if d.one_in(2) { 0.0 } else { self.number(d) };
        (self.number(d), y)
    }
}

fn step(d: &mut Dice, a: Alphabet) -> Step {
    match d.below(8) {
        0 | 1 => Step::Move(a.point(d)),
        2 | 3 | 4 => Step::Draw(Segment::Line(a.point(d))),
        5 => Step::Draw(Segment::Quad(a.point(d), a.point(d))),
        6 => Step::Draw(Segment::Cubic(a.point(d), a.point(d), a.point(d))),
        _ => Step::Close,
    }
}

fn steps(d: &mut Dice) -> Vec<Step> {
    use Alphabet::*;
    let a = d.of(&[Common, Small, Near, Large, All]);
    let n = d.below(7);
    (0..n).map(|_| step(d, a)).collect()
}

fn number(d: &mut Dice) -> f32 {
    if d.one_in(4) {
        d.pattern()
    } else {
        f32::from_bits(d.of(&COMMON))
    }
}

fn call(d: &mut Dice) -> Call {
    match d.below(24) {
        0 => Call::Force,
        1..4 => Call::Transform([number(d), d.of(&[0.0, -0.0]), 0.0, 1.0, 0.0, 0.0]),
        4..6 => Call::Fill(d.one_in(2)),
        6..9 => Call::Stroke(Stroke {
            width: number(d),
            join: d.below(3) as u32,
            miter_limit: if d.one_in(2) { 4.0 } else { d.pattern() },
            start_cap: d.below(3) as u32,
            end_cap: d.below(3) as u32,
        }),
        9..14 => {
            let fill = d.one_in(2);
            let end = d.of(&[Some(true), Some(true), Some(false), None]);
            Call::Path(fill, steps(d), end)
        }
        14..17 => Call::Elements(d.one_in(2), steps(d)),
        17 => Call::EmptyShape,
        18 => Call::Draw(0x44, vec![d.next() as u32]),
        19 => Call::Draw(
            0x2d4,
            (0..5)
                .map(|i| if i == 0 { 7 } else { number(d).to_bits() })
                .collect(),
        ),
        20 | 21 => Call::Begin(d.next() as u8, d.next() as u8, number(d)),
        22 => Call::End,
        _ if d.one_in(6) => Call::Reset,
        _ => Call::End,
    }
}

/// List number n, of 1 to 16 calls.
pub fn list(n: u64) -> Vec<Call> {
    let mut d = Dice::new(n);
    let calls = 1 + d.below(16);
    (0..calls).map(|_| call(&mut d)).collect()
}
