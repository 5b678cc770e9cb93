//! docs/RULES.md once more, as plainly as it can be said: the calls over one
//! list for each stream (sections 4 to 8), the log (13) and the reader (11).
//! It shares no code with the library. Space is not limited here.

pub const E: f32 = f32::from_bits(0x2b8c_bccc);
pub const T: f32 = f32::from_bits(0x3eaa_aaab);

pub type Point = (f32, f32);

/// Where the crate errs, a reading that errs with it.
#[derive(Clone, Copy, Default, Debug)]
pub struct Errs {
    /// A segment in Start is a move while nothing is counted.
    pub lost_lines: bool,
    /// A difference that overflows is used as it is.
    pub infinite_ends: bool,
}

#[derive(Clone, Copy, PartialEq, Debug)]
pub enum State {
    Start,
    MoveTo,
    NonemptySubpath,
}
use State::{MoveTo, NonemptySubpath, Start};

#[derive(Clone, Copy, Debug)]
pub enum Segment {
    Line(Point),
    Quad(Point, Point),
    Cubic(Point, Point, Point),
}

impl Segment {
    fn points(self) -> Vec<Point> {
        match self {
            Segment::Line(a) => vec![a],
            Segment::Quad(a, b) => vec![a, b],
            Segment::Cubic(a, b, c) => vec![a, b, c],
        }
    }
}

#[derive(Clone, Copy, Debug)]
pub enum Step {
    Move(Point),
    Draw(Segment),
    Close,
}

fn far(p: Point, q: Point) -> bool {
    (p.0 - q.0).abs() > E || (p.1 - q.1).abs() > E
}

/// An open path over its own words and tags.
#[derive(Clone, Debug)]
pub struct Open {
    pub fill: bool,
    pub state: State,
    pub moved: bool,
    pub first: Point,
    pub tangent: Point,
    pub words: Vec<u32>,
    pub tags: Vec<u8>,
    errs: Errs,
}

impl Open {
    pub fn new(fill: bool, errs: Errs) -> Self {
        Open {
            fill,
            state: Start,
            moved: false,
            first: (0.0, 0.0),
            tangent: (0.0, 0.0),
            words: vec![],
            tags: vec![],
            errs,
        }
    }

    pub fn step(&mut self, s: Step) {
        match s {
            Step::Move(p) => self.move_to(p),
            Step::Draw(s) => self.segment_to(s),
            Step::Close => self.close(),
        }
    }

    fn pair(&self) -> (u32, u32) {
        let n = self.words.len();
        (self.words[n - 2], self.words[n - 1])
    }

    fn pair_goes(&mut self) {
        self.words.truncate(self.words.len() - 2);
    }

    fn end_subpath(&mut self) {
        *self.tags.last_mut().unwrap() |= 0x04;
    }

    fn write(&mut self, s: Segment) {
        for p in s.points() {
            self.words.extend([p.0.to_bits(), p.1.to_bits()]);
        }
        self.tags.push(0x08 + s.points().len() as u8);
        self.state = NonemptySubpath;
    }

    fn move_to(&mut self, p: Point) {
        if self.fill {
            self.close();
        }
        match self.state {
            Start => {}
            MoveTo => self.pair_goes(),
            NonemptySubpath => {
                self.segment_to(Segment::Quad(self.first, self.tangent));
                self.end_subpath();
            }
        }
        self.first = p;
        self.words.extend([p.0.to_bits(), p.1.to_bits()]);
        self.state = MoveTo;
        self.moved = true;
    }

    fn segment_to(&mut self, s: Segment) {
        if self.state == Start {
            let begun = if self.errs.lost_lines {
                !self.tags.is_empty()
            } else {
                self.moved
            };
            if !begun {
                return self.move_to(*s.points().last().unwrap());
            }
            self.move_to(self.first);
        }
        if self.state == MoveTo {
            let Some(end) = self.tangent_end(s) else {
                return;
            };
            self.tangent = end;
        }
        if !self.too_short(s) {
            self.write(s);
        }
    }

    /// a + t(b - c) in one coordinate.
    fn third(&self, a: f32, b: f32, c: f32) -> f32 {
        let d = b - c;
        if d.is_infinite() && !self.errs.infinite_ends {
            a + (T * b - T * c)
        } else {
            a + T * d
        }
    }

    fn on(&self, a: Point, b: Point) -> Point {
        (self.third(a.0, b.0, a.0), self.third(a.1, b.1, a.1))
    }

    fn tangent_end(&self, s: Segment) -> Option<Point> {
        let p0 = self.first;
        match s {
            Segment::Line(p1) => far(p1, p0).then(|| self.on(p0, p1)),
            Segment::Quad(p1, _) if far(p1, p0) => Some(self.on(p1, p0)),
            Segment::Quad(p1, p2) => far(p2, p0).then(|| self.on(p1, p2)),
            Segment::Cubic(p1, p2, p3) => [p1, p2, p3].into_iter().find(|&p| far(p, p0)),
        }
    }

    fn too_short(&self, s: Segment) -> bool {
        let (x, y) = self.pair();
        let wide = |last: u32, own: Vec<f32>| {
            let mut all = own;
            if !f32::from_bits(last).is_nan() {
                all.push(f32::from_bits(last));
            }
            let (mut least, mut most) = (all[0], all[0]);
            for a in all {
                if a < least {
                    least = a;
                }
                if a > most {
                    most = a;
                }
            }
            most - least > E
        };
        let xs = s.points().iter().map(|p| p.0).collect();
        let ys = s.points().iter().map(|p| p.1).collect();
        !(wide(x, xs) || wide(y, ys))
    }

    fn close(&mut self) {
        match self.state {
            Start => return,
            MoveTo => self.pair_goes(),
            NonemptySubpath => {
                if self.pair() != (self.first.0.to_bits(), self.first.1.to_bits()) {
                    self.write(Segment::Line(self.first));
                }
                if !self.fill {
                    self.segment_to(Segment::Line(self.tangent));
                }
                self.end_subpath();
            }
        }
        self.state = Start;
    }

    /// What `finish` leaves, without tag 10.
    pub fn finish(&mut self) {
        if self.fill {
            self.close();
        }
        if self.state == MoveTo {
            self.pair_goes();
        }
        if !self.tags.is_empty() {
            if !self.fill && self.state == NonemptySubpath {
                self.segment_to(Segment::Quad(self.first, self.tangent));
            }
            self.end_subpath();
        }
    }
}

/// Joins are 0 bevel, 1 miter, 2 round; caps 0 butt, 1 square, 2 round.
#[derive(Clone, Copy, Debug)]
pub struct Stroke {
    pub width: f32,
    pub join: u32,
    pub miter_limit: f32,
    pub start_cap: u32,
    pub end_cap: u32,
}

impl Stroke {
    pub fn word(self) -> u32 {
        let half = half_of(self.miter_limit.to_bits()) as u32;
        0x8000_0000
            + self.join * 0x1000_0000
            + self.end_cap * 0x0100_0000
            + self.start_cap * 0x0400_0000
            + half
    }
}

/// The half of a pattern: the nearest, and of two the one of larger size.
pub fn half_of(pattern: u32) -> u16 {
    let sign = (pattern >> 16) as u16 & 0x8000;
    let size = f32::from_bits(pattern & 0x7fff_ffff) as f64;
    if size.is_nan() {
        return sign | 0x7e00;
    }
    if size >= 65_520.0 {
        return sign | 0x7c00;
    }
    // halves from 2^e to 2^(e + 1) lie 2^(e - 10) apart, and below 2^-14 as just above it
    let mut e = -14;
    while size >= 2f64.powi(e + 1) {
        e += 1;
    }
    let steps = (size / 2f64.powi(e - 10) + 0.5).floor() as u16;
    sign | (((e + 14) as u16) * 1024 + steps)
}

/// The f32 pattern of a half.
pub fn f32_of_half(half: u16) -> u32 {
    let sign = (half as u32 & 0x8000) << 16;
    let (e, fraction) = ((half >> 10 & 31) as i32, (half & 0x3ff) as u32);
    let size = match e {
        31 if fraction == 0 => 0x7f80_0000,
        31 => 0x7fc0_0000 | fraction << 13,
        0 => (fraction as f32 * 2f32.powi(-24)).to_bits(),
        _ => ((1024 + fraction) as f32 * 2f32.powi(e - 25)).to_bits(),
    };
    sign | size
}

/// What one path tag adds: transforms, segments, data words, twice styles, paths.
pub fn counts_of(tag: u8) -> [u32; 5] {
    let set = |mask: u8| (tag & mask != 0) as u32;
    let points = (tag & 3) as u32 + set(0x04);
    [
        set(0x20),
        (tag & 3 != 0) as u32,
        points << set(0x08),
        2 * set(0x40),
        set(0x10),
    ]
}

/// A style as its word and the pattern of its width.
pub type Style = (u32, u32);
pub type Transform = [u32; 6];

#[derive(Clone, Debug)]
pub enum Call {
    Reset,
    Force,
    Transform([f32; 6]),
    /// Even-odd or not.
    Fill(bool),
    Stroke(Stroke),
    /// Fill or not, the steps, then `finish` with a marker or not, or `abandon`.
    Path(bool, Vec<Step>, Option<bool>),
    Elements(bool, Vec<Step>),
    EmptyShape,
    /// A draw tag that is not a clip's, and its words.
    Draw(u32, Vec<u32>),
    Begin(u8, u8, f32),
    End,
}

#[derive(Clone, Default, Debug, PartialEq)]
pub struct Sheet {
    pub path_tags: Vec<u8>,
    pub path_data: Vec<u32>,
    pub draw_tags: Vec<u32>,
    pub draw_data: Vec<u32>,
    pub transforms: Vec<Transform>,
    pub styles: Vec<Style>,
    pub n_paths: u32,
    pub n_path_segments: u32,
    pub n_clips: u32,
    pub n_open_clips: u32,
    pub flags: u32,
}

#[derive(Clone, Debug, PartialEq)]
pub struct Drawn {
    pub tag: u8,
    pub points: Vec<u32>,
    pub style: Option<Style>,
    pub transform: Option<Transform>,
}

#[derive(Clone, Default, Debug)]
pub struct Log {
    pub style: Option<Style>,
    pub transform: Option<Transform>,
    pub segments: Vec<Drawn>,
    /// Tag, words, and for an end the place of the begin that it closes.
    pub commands: Vec<(u32, Vec<u32>, Option<usize>)>,
    pub open: Vec<usize>,
}

/// What a call answers: nothing, a truth or a count.
#[derive(Clone, Copy, PartialEq, Debug)]
pub enum Answer {
    Nothing,
    Truth(bool),
    Count(u32),
    /// The refusal of that number.
    Declined(u32),
}

fn same_numbers(a: &Transform, b: &Transform) -> bool {
    (0..6).all(|i| f32::from_bits(a[i]) == f32::from_bits(b[i]))
}

impl Log {
    fn add_path(&mut self, tags: &[u8], words: &[u32]) {
        let mut at = 0;
        for &tag in tags {
            let points = (tag & 3) as usize;
            self.segments.push(Drawn {
                tag,
                points: words[at..at + 2 * (points + 1)].to_vec(),
                style: self.style,
                transform: self.transform,
            });
            at += 2 * (points + (tag & 4 != 0) as usize);
        }
    }

    fn add_command(&mut self, tag: u32, words: &[u32], closes: Option<usize>) {
        self.commands.push((tag, words.to_vec(), closes));
    }
}

impl Sheet {
    fn set_style(&mut self, log: &mut Log, word: u32, width: f32) {
        let last = self.styles.last();
        let same = last.is_some_and(|l| l.0 == word && f32::from_bits(l.1) == width);
        if self.flags & 2 != 0 || !same {
            self.path_tags.push(0x40);
            self.styles.push((word, width.to_bits()));
            self.flags &= !2;
        }
        log.style = Some((word, width.to_bits()));
    }

    fn end_path(&mut self, log: &mut Log, mut p: Open, marker: bool) -> u32 {
        p.finish();
        let count = p.tags.len() as u32;
        if count != 0 {
            self.path_data.extend(&p.words);
            self.path_tags.extend(&p.tags);
            self.n_path_segments += count;
            if marker {
                self.path_tags.push(0x10);
                self.n_paths += 1;
            }
            log.add_path(&p.tags, &p.words);
        } else {
            assert!(p.words.is_empty(), "a path that counted nothing left words");
        }
        count
    }

    pub fn call(&mut self, log: &mut Log, call: &Call, errs: Errs) -> Answer {
        match call {
            Call::Reset => {
                *self = Sheet::default();
                *log = Log::default();
            }
            Call::Force => self.flags |= 3,
            Call::Transform(t) => {
                let t = t.map(f32::to_bits);
                let same = self.transforms.last().is_some_and(|l| same_numbers(l, &t));
                let writes = self.flags & 1 != 0 || !same;
                if writes {
                    self.path_tags.push(0x20);
                    self.transforms.push(t);
                    self.flags &= !1;
                }
                log.transform = Some(t);
                return Answer::Truth(writes);
            }
            Call::Fill(even_odd) => {
                self.set_style(log, if *even_odd { 0x4000_0000 } else { 0 }, 0.0);
            }
            Call::Stroke(s) => {
                if s.width == 0.0 {
                    return Answer::Declined(4);
                }
                self.set_style(log, s.word(), s.width);
                return Answer::Truth(true);
            }
            Call::Path(fill, steps, end) => {
                let mut p = Open::new(*fill, errs);
                for s in steps {
                    p.step(*s);
                }
                if let Some(marker) = end {
                    return Answer::Count(self.end_path(log, p, *marker));
                }
            }
            Call::Elements(fill, steps) => {
                let mut p = Open::new(*fill, errs);
                for s in steps {
                    p.step(*s);
                }
                return Answer::Truth(self.end_path(log, p, true) != 0);
            }
            Call::EmptyShape => {
                self.path_data.extend([0; 4]);
                self.path_tags.extend([0x0d, 0x10]);
                self.n_path_segments += 1;
                self.n_paths += 1;
                log.add_path(&[0x0d], &[0; 4]);
            }
            Call::Draw(tag, words) => {
                self.draw_tags.push(*tag);
                self.draw_data.extend(words);
                log.add_command(*tag, words, None);
            }
            Call::Begin(mix, compose, alpha) => {
                let words = [256 * *mix as u32 + *compose as u32, alpha.to_bits()];
                self.draw_tags.push(0x49);
                self.draw_data.extend(words);
                self.n_clips += 1;
                self.n_open_clips += 1;
                log.open.push(log.commands.len());
                log.add_command(0x49, &words, None);
            }
            Call::End => {
                if self.n_open_clips == 0 {
                    return Answer::Declined(5);
                }
                self.draw_tags.push(0x21);
                self.path_tags.push(0x10);
                self.n_paths += 1;
                self.n_clips += 1;
                self.n_open_clips -= 1;
                let begin = log.open.pop();
                log.add_command(0x21, &[], begin);
            }
        }
        Answer::Nothing
    }
}
