//! Clips: where a position falls among the samples, and the instances that keep a clip's time.

use crate::player::Instance;
use crate::texts::plan::Clip;

/// Between which samples a position falls, and how far along.
#[derive(Clone, Copy, Debug, PartialEq)]
pub struct Place {
    pub first: usize,
    pub second: usize,
    pub factor: f32,
}

/// None where the clip has no samples, whatever its ending.
pub fn place(clip: &Clip, position: f32) -> Option<Place> {
    let samples = usize::from(clip.samples);
    let last = samples.checked_sub(1)?;
    // NaN is never at the end.
    if clip.stops && position >= last as f32 {
        return Some(Place {
            first: last,
            second: last,
            factor: 0.0,
        });
    }
    let floor = floor_index(position);
    let ceiling = position.ceil() as usize;
    Some(Place {
        first: floor % samples,
        second: ceiling % samples,
        factor: position - floor as f32,
    })
}

/// NaN and negatives are at 0, 2^64 and above at 2^64 - 1.
pub fn floor_index(position: f32) -> usize {
    position.floor() as usize
}

/// In samples, for a clip of this rate.
pub fn position(instance: Instance, time: f32, rate: f32) -> f32 {
    local_time(instance, time) * rate
}

/// In seconds, at this rate.
pub fn duration(clip: &Clip, rate: f32) -> f32 {
    f32::from(clip.samples) / rate
}

pub fn local_time([start, playback, offset]: Instance, time: f32) -> f32 {
    (time - start) * playback + offset
}

/// With a new playback rate and, if it is unequal, the same local time at this time.
pub fn with_rate(instance: Instance, time: f32, rate: f32) -> Instance {
    let [start, playback, _] = instance;
    if playback == rate {
        return instance;
    }
    let offset = local_time(instance, time) - (time - start) * rate;
    [start, rate, offset]
}

#[cfg(test)]
mod tests {
    use super::*;

    const LOOP: bool = false;
    const STOP: bool = true;

    /// First index, second index and the factor's bits, every NaN by one pattern.
    fn at(samples: u16, stops: bool, position: f32) -> (usize, usize, u32) {
        let place = place(&Clip { samples, stops }, position).expect("a clip with samples");
        (place.first, place.second, crate::judge::bits(place.factor))
    }

    fn expected(first: usize, second: usize, factor: f32) -> (usize, usize, u32) {
        (first, second, crate::judge::bits(factor))
    }

    /// Cases e, f and g of the bench sheet.
    #[test]
    fn a_loop_has_no_end() {
        assert_eq!(at(4, LOOP, 3.5), expected(3, 0, 0.5));
        assert_eq!(at(4, LOOP, -0.5), expected(0, 0, -0.5));
        assert_eq!(
            at(4, LOOP, 18_446_744_073_709_551_616.0),
            expected(3, 3, 0.0)
        );
        assert_eq!(at(4, LOOP, 3.0), expected(3, 3, 0.0));
        assert_eq!(at(4, LOOP, 4.25), expected(0, 1, 0.25));
    }

    #[test]
    fn a_stopping_clip_holds_its_last_sample() {
        let after = [3f32, 3f32.next_up(), 3.5, 4.0, 4.25, 7.5, 16_777_217.0];
        let far = [9.2e18, 1.8e19, 1.9e19, 3e38, f32::MAX, f32::INFINITY];
        for position in after.into_iter().chain(far) {
            assert_eq!(at(4, STOP, position), expected(3, 3, 0.0), "{position}");
        }
        for position in [4095.0, 4095.5, 4096.0, f32::INFINITY] {
            let held = expected(4095, 4095, 0.0);
            assert_eq!(at(4096, STOP, position), held, "{position}");
        }
    }

    #[test]
    fn below_its_end_it_is_sampled_as_a_loop() {
        let below = 3f32.next_down();
        assert_eq!(at(4, STOP, below), expected(2, 3, below - 2.0));
        assert_eq!(at(4, STOP, 2.5), expected(2, 3, 0.5));
        assert_eq!(at(4, STOP, 2.0), expected(2, 2, 0.0));
        assert_eq!(at(4, STOP, 0.0), expected(0, 0, 0.0));
        assert_eq!(at(4, STOP, -0.0), expected(0, 0, -0.0));
        assert_eq!(at(4, STOP, -1e-45), expected(0, 0, -1e-45));
        assert_eq!(at(4, STOP, -0.5), expected(0, 0, -0.5));
        assert_eq!(at(4, STOP, -3.5), expected(0, 0, -3.5));
        let least = f32::NEG_INFINITY;
        assert_eq!(at(4, STOP, least), expected(0, 0, least));
        assert_eq!(at(4, STOP, f32::NAN), expected(0, 0, f32::NAN));
        assert_eq!(at(4096, STOP, 4094.5), expected(4094, 4095, 0.5));
    }

    /// The end of one sample is 0, and -0 is not below it.
    #[test]
    fn one_sample_is_held_from_0_on() {
        for position in [0.0, -0.0, 1e-45, 0.5, 1.0, 1e30, f32::INFINITY] {
            assert_eq!(at(1, STOP, position), expected(0, 0, 0.0), "{position}");
        }
        for position in [-1e-45, -0.5, -1.0, f32::NEG_INFINITY, f32::NAN] {
            assert_eq!(at(1, STOP, position), at(1, LOOP, position), "{position}");
            assert_eq!(at(1, STOP, position), expected(0, 0, position));
        }
        assert_eq!(at(1, LOOP, -0.0), expected(0, 0, -0.0));
        assert_eq!(at(1, LOOP, 0.5), expected(0, 0, 0.5));
    }

    /// A stopping clip's last position would be -1 here.
    #[test]
    fn without_samples_there_is_no_place() {
        let positions = [0.0, -0.0, 0.5, 1.0, -0.5, -1.0, -1.5, 1e30];
        let others = [f32::INFINITY, f32::NEG_INFINITY, f32::NAN];
        for position in positions.into_iter().chain(others) {
            for stops in [LOOP, STOP] {
                let clip = Clip { samples: 0, stops };
                assert_eq!(place(&clip, position), None, "{position}");
            }
        }
    }

    /// Case j of the bench sheet.
    #[test]
    fn a_new_rate_keeps_the_local_time() {
        let changed = with_rate([0.0, 1.0, 0.0], 8.0, 0.5);
        assert_eq!(changed, [0.0, 0.5, 4.0]);
        assert_eq!(local_time(changed, 8.0), 8.0);
        assert_eq!(with_rate([1.0, 0.5, 4.0], 8.0, 0.5), [1.0, 0.5, 4.0]);
    }
}
