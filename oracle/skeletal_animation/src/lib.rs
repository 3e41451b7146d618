//! The six files of PistonDevelopers/skeletal_animation, unchanged. They stay where `build.rs`
//! finds them; what they import from other crates is in `stand-ins/`.
#![allow(warnings)]

pub extern crate collada;
pub extern crate dual_quaternion;
pub extern crate float;
pub extern crate gfx;
pub extern crate gfx_debug_draw;
pub extern crate interpolation;
pub extern crate quaternion;
pub extern crate rustc_serialize;
#[macro_use]
extern crate rustc_serialize_derive;
pub extern crate vecmath;

include!(concat!(env!("OUT_DIR"), "/modules.rs"));
