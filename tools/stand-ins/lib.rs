//! The root of the crate: its six modules, which `build-crate` links in from
//! the folder it is given, and stand-ins for what the others would define.
mod clip;
mod draw;
mod encoding;
mod math;
mod monoid;
mod path;

pub use clip::*;
pub use draw::*;
pub use encoding::*;
pub use math::*;
pub use monoid::*;
pub use path::*;

use core::ops::Range;

/// The crate keeps this one to itself.
pub fn f32_to_f16(x: f32) -> u16 {
    math::f32_to_f16(x)
}

pub type NormalizedCoord = i16;

#[derive(Clone, Copy)]
pub struct Glyph;

#[derive(Clone)]
pub struct GlyphRun {
    pub transform: Transform,
    pub glyphs: Range<usize>,
    pub normalized_coords: Range<usize>,
    pub stream_offsets: StreamOffsets,
}

#[derive(Clone)]
pub enum Patch {
    Ramp {
        draw_data_offset: usize,
        stops: Range<usize>,
        extend: peniko::Extend,
        interpolation_alpha_space: peniko::InterpolationAlphaSpace,
    },
    GlyphRun {
        index: usize,
    },
    Image {
        image: peniko::ImageData,
        draw_data_offset: usize,
    },
}
