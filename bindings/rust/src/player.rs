//! Players: what moves.

use crate::calls::{self, FrameKind, Slices};
use crate::figure::Figure;
use crate::loops::Loops;
use crate::refusal::Refusal;
use crate::sys::{RawPlayer, INSTANCE_FLOATS, PARAMETERS};

/// How many clip instances a player has.
pub const INSTANCES: usize = INSTANCE_FLOATS / 3;

/// A float's bits, all NaNs alike: document 01's sameness.
fn bits_32(value: f32) -> u32 {
    if value.is_nan() {
        f32::NAN.to_bits()
    } else {
        value.to_bits()
    }
}

fn bits_64(value: f64) -> u64 {
    if value.is_nan() {
        f64::NAN.to_bits()
    } else {
        value.to_bits()
    }
}

fn same(a: &[f32], b: &[f32]) -> bool {
    a.len() == b.len() && a.iter().zip(b).all(|(a, b)| bits_32(*a) == bits_32(*b))
}

/// A transition that a player is in.
///
/// Floats are equal here if their bits are, and all NaNs are equal.
#[derive(Clone, Copy, Debug)]
pub struct Transition {
    /// The time, clock + ext, of the frame that began it.
    pub start: f64,
    /// The state that it leads to.
    pub target: usize,
    /// Its seconds.
    pub duration: f32,
}

impl PartialEq for Transition {
    fn eq(&self, other: &Transition) -> bool {
        bits_64(self.start) == bits_64(other.start)
            && self.target == other.target
            && bits_32(self.duration) == bits_32(other.duration)
    }
}

impl Eq for Transition {}

/// What a player holds for one clip node of the plan.
///
/// Floats are equal here if their bits are, and all NaNs are equal.
#[derive(Clone, Copy, Debug)]
pub struct ClipInstance {
    /// Its start time.
    pub start: f32,
    /// Its playback rate.
    pub rate: f32,
    /// Its offset.
    pub offset: f32,
}

impl PartialEq for ClipInstance {
    fn eq(&self, other: &ClipInstance) -> bool {
        same(
            &[self.start, self.rate, self.offset],
            &[other.start, other.rate, other.offset],
        )
    }
}

impl Eq for ClipInstance {}

/// All that a player holds, to be saved and restored: see [`Player::parts`] and [`Player::from_parts`].
#[derive(Clone, Debug)]
pub struct PlayerParts {
    /// Seconds played.
    pub clock: f64,
    /// By how much the clock grows in a second.
    pub speed: f64,
    /// The current state.
    pub state: usize,
    /// The transition that the player is in; `None` if idle.
    pub transition: Option<Transition>,
    /// The parameters' values.
    pub parameters: [f32; 32],
    /// The clip instances: number n is that of the plan's clip node n, counted from 0 over all states.
    pub instances: [ClipInstance; 64],
}

/// A player: clock, speed, current state, perhaps a transition, parameters and clip instances.
///
/// [`Figure::start`] makes one. Use it with the figure that it comes from: with another nothing breaks, but
/// what it shows is then made of numbers that were meant for the first.
///
/// Players are equal if all that they hold is, where floats are equal if their bits are, and all NaNs are equal.
#[derive(Clone, Debug)]
pub struct Player {
    raw: RawPlayer,
}

impl Player {
    /// The player that a refused start gives: clock 0, speed 1, state 0, idle, all parameters 0, all clip instances
    /// at start 0, rate 1, offset 0.
    pub fn blank() -> Player {
        // No plan begins with nothing, so this start is refused.
        let (_, player) = calls::start(Slices {
            plan: &[],
            numbers: &[],
        });
        Player::from_raw(player)
    }

    /// A player with these parts. Any are taken: a state that the figure lacks is refused by frames and by
    /// [`Player::loops`].
    ///
    /// ```
    /// use gentianlathe::{Player, PlayerParts};
    ///
    /// let mut player = Player::blank();
    /// player.update(2.5);
    /// let saved: PlayerParts = player.parts();
    /// assert_eq!(Player::from_parts(&saved), player);
    /// ```
    pub fn from_parts(parts: &PlayerParts) -> Player {
        calls::hold_layout();
        let mut raw = RawPlayer {
            clock: parts.clock,
            speed: parts.speed,
            state: parts.state,
            parameters: parts.parameters,
            ..RawPlayer::EMPTY
        };
        if let Some(transition) = parts.transition {
            raw.running = 1;
            raw.start = transition.start;
            raw.target = transition.target;
            raw.duration = transition.duration;
        }
        for (floats, instance) in raw.instances.chunks_exact_mut(3).zip(&parts.instances) {
            floats.copy_from_slice(&[instance.start, instance.rate, instance.offset]);
        }
        Player { raw }
    }

    pub(crate) fn from_raw(raw: RawPlayer) -> Player {
        Player { raw }
    }

    /// All that the player holds.
    pub fn parts(&self) -> PlayerParts {
        PlayerParts {
            clock: self.clock(),
            speed: self.speed(),
            state: self.state(),
            transition: self.transition(),
            parameters: self.raw.parameters,
            instances: self.instances(),
        }
    }

    /// Moves the clock on by `delta` seconds times the speed. Never refused.
    pub fn update(&mut self, delta: f64) {
        calls::update(&mut self.raw, delta);
    }

    /// Gives the player another speed. Never refused.
    pub fn set_speed(&mut self, speed: f64) {
        calls::speed(&mut self.raw, speed);
    }

    /// Gives a parameter another value.
    ///
    /// # Errors
    ///
    /// [`Refusal::Parameter`] from number 32 on; the player is then as it was.
    pub fn set_parameter(&mut self, parameter: usize, value: f32) -> Result<(), Refusal> {
        calls::set(&mut self.raw, parameter, value)
    }

    /// Shows a frame at clock + `ext`: 16 floats a joint, by rows, at the front of `output`; what follows is kept.
    /// A clip without samples shows the identity pose at every joint.
    /// The player moves with it: a transition begins or ends, clips are synchronised.
    ///
    /// # Errors
    ///
    /// [`Refusal::State`] where the figure lacks the player's state or its transition's target, then
    /// [`Refusal::Output`] where `output` is shorter than [`Figure::output_len`]. Player and output are then as
    /// they were.
    pub fn frame(&mut self, figure: &Figure, ext: f64, output: &mut [f32]) -> Result<(), Refusal> {
        calls::frame(
            FrameKind::Plain,
            figure.slices(),
            &mut self.raw,
            ext,
            output,
        )
    }

    /// Shows a page frame: as [`Player::frame`], but that the upper 3×3 of each joint's own matrix is transposed before
    /// its parent's is multiplied on: for rotations as glTF, three.js and web pages have them. The player moves alike.
    ///
    /// ```
    /// # use gentianlathe::Figure;
    /// // An arm turned by a right angle about z, and a hand 0.5 along it.
    /// let figure = Figure::from_text(include_bytes!("../../../examples/page.figure"))?;
    /// let [mut frame, mut page] = [[0.0; 32]; 2];
    /// figure.start().frame(&figure, 0.0, &mut frame)?;
    /// figure.start().page_frame(&figure, 0.0, &mut page)?;
    /// // The hand's height: below the arm's joint at 1.5, and above it.
    /// assert_eq!((frame[16 + 7], page[16 + 7]), (1.0016913, 1.9983087));
    /// # Ok::<(), gentianlathe::Refusal>(())
    /// ```
    ///
    /// # Errors
    ///
    /// Those of [`Player::frame`].
    pub fn page_frame(
        &mut self,
        figure: &Figure,
        ext: f64,
        output: &mut [f32],
    ) -> Result<(), Refusal> {
        calls::frame(FrameKind::Page, figure.slices(), &mut self.raw, ext, output)
    }

    /// How many whole loops the clip of a node has played at a time, and how many samples of the next. States are
    /// numbered from 0, and so are the nodes of each; any state may be asked about, not only the player's.
    ///
    /// The time is in seconds. Frames play clips at `(clock + ext * speed) as f32`, so with ext 0 the clock is the time
    /// to ask for. Nothing is synchronised first: the clip's instance counts as the player has it, so that a frame in
    /// between may change the answer.
    ///
    /// ```
    /// # use gentianlathe::{Figure, Loops, ROOT};
    /// let plan = vec![1, 1, 0, 1, 0, ROOT, 4, 0, 1, 0, 0, 0, 0, 0]; // a clip of 4 samples that loops
    /// let figure = Figure::new(plan, [vec![2.0], vec![0.0; 4 * 8]].concat())?; // 2 samples a second
    /// let mut player = figure.start();
    /// player.update(5.25);
    /// // 10.5 samples in: twice round, and 2 of the third time.
    /// let played = player.loops(&figure, player.state(), 0, player.clock() as f32)?;
    /// assert_eq!(played, Loops { loops: 2, rest: 2 });
    /// # Ok::<(), gentianlathe::Refusal>(())
    /// ```
    ///
    /// # Errors
    ///
    /// [`Refusal::State`] where the figure lacks the player's state or its transition's target, then
    /// [`Refusal::ClipNode`] where it lacks the state or the node that is asked about, or the node is no clip, then
    /// [`Refusal::LoopingClip`] where the clip has no samples or stops.
    pub fn loops(
        &self,
        figure: &Figure,
        state: usize,
        node: usize,
        time: f32,
    ) -> Result<Loops, Refusal> {
        let (answer, played) = calls::loops(figure.slices(), &self.raw, state, node, time);
        answer?;
        Ok(Loops {
            loops: played.loops,
            rest: played.rest,
        })
    }

    /// Seconds played.
    pub fn clock(&self) -> f64 {
        self.raw.clock
    }

    /// By how much the clock grows in a second.
    pub fn speed(&self) -> f64 {
        self.raw.speed
    }

    /// The current state, from 0.
    pub fn state(&self) -> usize {
        self.raw.state
    }

    /// The transition that the player is in; `None` if idle.
    pub fn transition(&self) -> Option<Transition> {
        let RawPlayer {
            running,
            start,
            target,
            duration,
            ..
        } = self.raw;
        (running != 0).then_some(Transition {
            start,
            target,
            duration,
        })
    }

    /// The values of the 32 parameters.
    pub fn parameters(&self) -> &[f32; PARAMETERS] {
        &self.raw.parameters
    }

    /// The 64 clip instances.
    pub fn instances(&self) -> [ClipInstance; INSTANCES] {
        let floats = &self.raw.instances;
        std::array::from_fn(|n| ClipInstance {
            start: floats[3 * n],
            rate: floats[3 * n + 1],
            offset: floats[3 * n + 2],
        })
    }
}

impl PartialEq for Player {
    fn eq(&self, other: &Player) -> bool {
        bits_64(self.clock()) == bits_64(other.clock())
            && bits_64(self.speed()) == bits_64(other.speed())
            && self.state() == other.state()
            && self.transition() == other.transition()
            && same(&self.raw.parameters, &other.raw.parameters)
            && same(&self.raw.instances, &other.raw.instances)
    }
}

impl Eq for Player {}

/// The blank player.
impl Default for Player {
    fn default() -> Player {
        Player::blank()
    }
}
