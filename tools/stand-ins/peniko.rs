//! The types of peniko, kurbo and color that the crate names.
//! Points, strokes, fills and blend modes work. Colours, gradients and images
//! only let the crate compile: no call that we compare uses them.

#[derive(Clone, Copy)]
pub enum Fill {
    NonZero,
    EvenOdd,
}

/// The two bytes of a blend word.
#[derive(Clone, Copy)]
pub struct BlendMode {
    pub mix: u8,
    pub compose: u8,
}

pub mod kurbo {
    #[derive(Clone, Copy)]
    pub struct Point {
        pub x: f64,
        pub y: f64,
    }

    #[derive(Clone, Copy)]
    pub enum PathEl {
        MoveTo(Point),
        LineTo(Point),
        QuadTo(Point, Point),
        CurveTo(Point, Point, Point),
        ClosePath,
    }

    pub trait Shape {
        fn path_elements(&self, tolerance: f64) -> impl Iterator<Item = PathEl>;
    }

    #[derive(Clone, Copy)]
    pub enum Join {
        Bevel,
        Miter,
        Round,
    }

    #[derive(Clone, Copy)]
    pub enum Cap {
        Butt,
        Square,
        Round,
    }

    #[derive(Clone, Copy)]
    pub struct Stroke {
        pub width: f64,
        pub join: Join,
        pub miter_limit: f64,
        pub start_cap: Cap,
        pub end_cap: Cap,
    }

    #[derive(Clone, Copy)]
    pub struct Affine([f64; 6]);

    impl Affine {
        pub fn new(c: [f64; 6]) -> Self {
            Self(c)
        }

        pub fn as_coeffs(self) -> [f64; 6] {
            self.0
        }
    }
}

pub mod color {
    use core::marker::PhantomData;

    pub trait ColorSpace {}

    #[derive(Clone, Copy)]
    pub struct Srgb;
    impl ColorSpace for Srgb {}

    #[derive(Clone, Copy)]
    pub struct AlphaColor<CS>(PhantomData<CS>);
    #[derive(Clone, Copy)]
    pub struct OpaqueColor<CS>(PhantomData<CS>);
    #[derive(Clone, Copy)]
    pub struct PremulColor<CS>(PhantomData<CS>);
    #[derive(Clone, Copy)]
    pub struct DynamicColor;
    pub struct Rgba8;

    impl<CS: ColorSpace> AlphaColor<CS> {
        pub fn convert<T: ColorSpace>(self) -> AlphaColor<T> {
            unimplemented!()
        }
        pub fn premultiply(self) -> PremulColor<CS> {
            unimplemented!()
        }
        pub fn multiply_alpha(self, _: f32) -> Self {
            unimplemented!()
        }
    }

    impl<CS: ColorSpace> OpaqueColor<CS> {
        pub fn convert<T: ColorSpace>(self) -> OpaqueColor<T> {
            unimplemented!()
        }
        pub fn with_alpha(self, _: f32) -> AlphaColor<CS> {
            unimplemented!()
        }
    }

    impl<CS: ColorSpace> PremulColor<CS> {
        pub fn convert<T: ColorSpace>(self) -> PremulColor<T> {
            unimplemented!()
        }
        pub fn to_rgba8(self) -> Rgba8 {
            unimplemented!()
        }
    }

    impl DynamicColor {
        pub fn to_alpha_color<CS: ColorSpace>(self) -> AlphaColor<CS> {
            unimplemented!()
        }
    }

    impl Rgba8 {
        pub fn to_u32(self) -> u32 {
            unimplemented!()
        }
    }

    pub mod palette {
        pub mod css {
            use crate::color::{AlphaColor, Srgb};
            pub const TRANSPARENT: AlphaColor<Srgb> = AlphaColor(core::marker::PhantomData);
        }
    }
}

#[derive(Clone, Copy)]
pub enum Extend {
    Pad,
}

#[derive(Clone, Copy)]
pub struct InterpolationAlphaSpace;

#[derive(Clone, Copy)]
pub struct ColorStop {
    pub color: color::DynamicColor,
}

impl ColorStop {
    pub fn multiply_alpha(self, _: f32) -> Self {
        unimplemented!()
    }
}

#[derive(Clone, Copy)]
pub struct LinearGradientPosition {
    pub start: kurbo::Point,
    pub end: kurbo::Point,
}

#[derive(Clone, Copy)]
pub struct RadialGradientPosition {
    pub start_center: kurbo::Point,
    pub start_radius: f32,
    pub end_center: kurbo::Point,
    pub end_radius: f32,
}

#[derive(Clone, Copy)]
pub struct SweepGradientPosition {
    pub center: kurbo::Point,
    pub start_angle: f32,
    pub end_angle: f32,
}

#[derive(Clone, Copy)]
pub enum GradientKind {
    Linear(LinearGradientPosition),
    Radial(RadialGradientPosition),
    Sweep(SweepGradientPosition),
}

pub struct Gradient {
    pub kind: GradientKind,
    pub extend: Extend,
    pub interpolation_alpha_space: InterpolationAlphaSpace,
    pub stops: Vec<ColorStop>,
}

#[derive(Clone, Copy)]
pub enum ImageFormat {
    Rgba8,
}

#[derive(Clone, Copy)]
pub enum ImageAlphaType {
    Alpha,
}

#[derive(Clone, Copy)]
pub enum ImageQuality {
    Low,
}

#[derive(Clone)]
pub struct ImageData {
    pub format: ImageFormat,
    pub alpha_type: ImageAlphaType,
    pub width: u32,
    pub height: u32,
}

#[derive(Clone, Copy)]
pub struct ImageSampler {
    pub x_extend: Extend,
    pub y_extend: Extend,
    pub quality: ImageQuality,
    pub alpha: f32,
}

#[derive(Clone, Copy)]
pub struct ImageBrushRef<'a> {
    pub image: &'a ImageData,
    pub sampler: ImageSampler,
}

pub enum BrushRef<'a> {
    Solid(color::AlphaColor<color::Srgb>),
    Gradient(&'a Gradient),
    Image(ImageBrushRef<'a>),
}
