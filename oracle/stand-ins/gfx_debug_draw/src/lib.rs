//! Drawing, which document 01 leaves out.

use gfx::{Factory, Resources};
use std::marker::PhantomData;

pub struct DebugRenderer<R: Resources, F: Factory<R>>(PhantomData<(R, F)>);

impl<R: Resources, F: Factory<R>> DebugRenderer<R, F> {
    pub fn draw_line(&mut self, _start: [f32; 3], _end: [f32; 3], _color: [f32; 4]) {
        unimplemented!("left out of document 01")
    }

    pub fn draw_text_at_position(&mut self, _text: &str, _position: [f32; 3], _color: [f32; 4]) {
        unimplemented!("left out of document 01")
    }
}
