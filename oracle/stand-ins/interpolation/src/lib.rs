//! Linear interpolation: a + (b - a) * t.

pub trait Lerp: Copy {
    fn lerp(self, other: Self, t: f32) -> Self;
}

impl Lerp for f32 {
    fn lerp(self, other: f32, t: f32) -> f32 {
        self + (other - self) * t
    }
}

impl Lerp for [f32; 3] {
    fn lerp(self, other: [f32; 3], t: f32) -> [f32; 3] {
        let part = |i: usize| self[i].lerp(other[i], t);
        [part(0), part(1), part(2)]
    }
}

pub fn lerp<T: Lerp>(a: &T, b: &T, t: &f32) -> T {
    a.lerp(*b, *t)
}
