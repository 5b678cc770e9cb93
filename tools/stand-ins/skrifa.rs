//! The pen interface that the path encoder implements.
pub mod outline {
    pub trait OutlinePen {
        fn move_to(&mut self, x: f32, y: f32);
        fn line_to(&mut self, x: f32, y: f32);
        fn quad_to(&mut self, cx0: f32, cy0: f32, x: f32, y: f32);
        fn curve_to(&mut self, cx0: f32, cy0: f32, cx1: f32, cy1: f32, x: f32, y: f32);
        fn close(&mut self);
    }
}
