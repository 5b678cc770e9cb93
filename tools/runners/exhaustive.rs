//! Compares the crate with rules.rs on every pattern of its pure functions:
//! halves both ways, the counts of a word of four path tags, those of a draw tag.
use rules::{counts_of, f32_of_half, half_of};
use vello_encoding::*;

/// How many of the inputs differ, and the least that does.
fn compare(name: &str, inputs: std::ops::RangeInclusive<u32>, same: impl Fn(u32) -> bool) {
    let n = *inputs.end() as u64 + 1;
    let mut apart = (0_u64, None);
    for i in inputs {
        if !same(i) {
            apart = (apart.0 + 1, apart.1.or(Some(i)));
        }
    }
    match apart.1 {
        None => println!("{name}: {n} inputs, none differs"),
        Some(i) => println!("{name}: {n} inputs, {} differ, the least {i:X}", apart.0),
    }
}

fn main() {
    compare("f32_to_f16", 0..=u32::MAX, |p| {
        f32_to_f16(f32::from_bits(p)) == half_of(p)
    });
    compare("f16_to_f32", 0..=0xffff, |h| {
        f16_to_f32(h as u16).to_bits() == f32_of_half(h as u16)
    });
    compare(
        "there and back, as the rules have it, but for NaNs",
        0..=0xffff,
        |h| h & 0x7fff > 0x7c00 || half_of(f32_of_half(h as u16)) == h as u16,
    );
    let table: Vec<[u32; 5]> = (0..=255).map(counts_of).collect();
    compare("PathMonoid::new", 0..=u32::MAX, |w| {
        let m = PathMonoid::new(w);
        let mut sums = [0; 5];
        for tag in w.to_le_bytes() {
            for (s, n) in sums.iter_mut().zip(table[tag as usize]) {
                *s += n;
            }
        }
        [
            m.trans_ix,
            m.pathseg_ix,
            m.pathseg_offset,
            m.style_ix,
            m.path_ix,
        ] == sums
    });
    compare("DrawMonoid::new", 0..=u32::MAX, |t| {
        let m = DrawMonoid::new(DrawTag(t));
        let sums = [(t != 0) as u32, t % 2, t / 4 % 8, t / 64 % 16];
        [m.path_ix, m.clip_ix, m.scene_offset, m.info_offset] == sums
    });
}
