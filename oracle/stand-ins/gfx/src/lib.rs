//! The traits that bound what skeletons are drawn with.

pub trait Resources {}

pub trait Factory<R: Resources> {}
