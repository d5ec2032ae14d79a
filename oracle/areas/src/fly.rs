//! Flights with areas that come and go between steps, and declined calls beside them.

use failsafe_open::{Config, Point2, Telemetry, validate_config};
use flights::{
    Both, Pilot, Ring, Setup, area_body, area_frame, break_areas, break_body, break_config,
    break_fence, damage, once_round, ring_near, star,
};
use frames::{
    AREA_SIDE, CONFIG, SIDE_FRAME, STATE_FRAME, State, TELEMETRY, TELEMETRY_FRAME, fence_open,
    put_frame, read_areas, read_fence, read_frame,
};
use port::{Call, Entry, Sides};
use random::Random;

use crate::counts::Counts;
use crate::held::Held;

/// Places in a frame of kind 6: the requests FenceApproach and FenceBreach, the distance, the side.
const APPROACH: usize = 7 + 3 * 10;
const BREACH: usize = 7 + 3 * 11;
const DISTANCE: usize = 89;
const SIDE: usize = 94;

fn setup(random: &mut Random) -> Setup {
    let setup = Setup::random(random);
    let other = match random.below(8) {
        0 => setup.fenced(star(random)),
        1..4 => setup.fenced(once_round(setup.fence.clone())),
        _ => None,
    };
    other.unwrap_or(setup)
}

/// The other side of one of the fence's sides: at the same distance as the fence, where nothing is rounded.
fn ring_beyond(random: &mut Random, setup: &Setup) -> Ring {
    let poly = &setup.geofence.poly;
    let k = random.below(poly.len());
    let (a, b) = (poly.vertex(k), poly.vertex((k + 1) % poly.len()));
    // Held counter-clockwise, the outside is to the right of a side.
    let (out_n, out_e) = (b.e - a.e, a.n - b.n);
    vec![
        (a.n, a.e),
        (b.n, b.e),
        (b.n + out_n, b.e + out_e),
        (a.n + out_n, a.e + out_e),
    ]
}

/// An area by a place: at a limit of the configuration, over one that is held, beyond a side of the fence, or far off.
fn body(random: &mut Random, setup: &Setup, held: &Held, place: (f32, f32)) -> Vec<u8> {
    let number = random.one_of(&[1, 2, 3, 4, 5, 6, 7, 8, 9, 100, 254, 255]);
    let bodies = held.bodies();
    match random.below(10) {
        0 if !bodies.is_empty() => {
            let over = &bodies[random.below(bodies.len())];
            [&[number], &over[1..]].concat()
        }
        1 => area_body(number, &ring_beyond(random, setup)),
        2 => {
            let far = (
                random.between(-3000.0, 3000.0),
                random.between(-3000.0, 3000.0),
            );
            area_body(number, &ring_near(random, far, 0.0))
        }
        _ => {
            let c = &setup.cfg;
            let limits = [
                0.0,
                0.0,
                c.fence_approach_m,
                c.fence_breach_clear_m,
                1.0,
                -1.0,
                -6.0,
            ];
            let limit = random.one_of(&limits);
            let far = random.one_of(&[limit, limit, limit.next_up(), limit.next_down()]);
            area_body(number, &ring_near(random, place, far))
        }
    }
}

pub struct Driver {
    pub random: Random,
    pub sides: Sides,
    pub counts: Counts,
    pub steps: u64,
    pub declined: u64,
    pub as_the_rust: u64,
}

impl Driver {
    /// An area is put in, or taken out.
    fn edit(&mut self, setup: &Setup, held: &mut Held, t: &Telemetry) -> Result<(), String> {
        let random = &mut self.random;
        if random.chance(3) {
            let numbers: Vec<u8> = held.bodies().iter().map(|body| body[0]).collect();
            let number = match numbers.as_slice() {
                [] => random.below(256) as u8,
                some => random.one_of(some),
            };
            let answer = held.remove(&mut self.sides, number)?;
            self.counts.add("remove", answer);
        } else {
            let place = t
                .position
                .map_or((30.0, 0.0), |sample| (sample.pos.n, sample.pos.e));
            let mut body = body(random, setup, held, place);
            if random.chance(12) {
                body = break_body(random, &body);
            }
            let answer = held.add(&mut self.sides, &body)?;
            self.counts.add("add", answer);
        }
        Ok(())
    }

    /// One flight, from a fresh state. As long as no area has been held the Rust steps beside it.
    pub fn fly(&mut self, steps: usize) -> Result<(), String> {
        let setup = setup(&mut self.random);
        let mut rust = Both::new(&setup.config, &setup.fence).ok();
        let mut pilot = Pilot::new(&mut self.random);
        let mut held = Held::default();
        let first = self.random.one_of(&[0, 0, 40, steps]);
        let mut call = Call {
            entry: Entry::Areas,
            config: setup.config.to_vec(),
            fence: setup.fence.clone(),
            state: vec![0; STATE_FRAME],
            ..Call::default()
        };
        self.sides.fresh(&mut call.state)?;
        for k in 0..steps {
            let old = State::read_frame(&call.state).expect("a state");
            let t = pilot.next(&mut self.random, &setup, &old);
            if k >= first && self.random.chance(4) {
                self.edit(&setup, &mut held, &t)?;
            }
            call.telemetry = vec![0; TELEMETRY_FRAME];
            put_frame(TELEMETRY, &t, &mut call.telemetry);
            call.areas = held.frame.clone();
            let room = SIDE_FRAME + self.random.below(3) * 20;
            call.output = (0..room).map(|k| k as u8 ^ 0x5A).collect();
            if self.random.chance(3) {
                self.decline(&call, &held)?;
            }
            let number = self.sides.step(&mut call)?;
            assert_eq!(number, 0, "a step of a flight is declined");
            rust = rust.filter(|_| held.is_empty());
            if let Some(rust) = &mut rust {
                self.beside(rust, &call);
            }
            self.count(&setup, &old, &held, &t, &call);
            self.steps += 1;
        }
        Ok(())
    }

    /// The step over areas is the Rust's own step.
    fn beside(&mut self, rust: &mut Both, call: &Call) {
        let decision = rust.step(&call.telemetry);
        let mut shown = call.output[..SIDE_FRAME].to_vec();
        shown.remove(SIDE);
        assert_eq!(
            shown[4..],
            decision[4..],
            "without areas the Rust decides otherwise"
        );
        assert_eq!(
            call.state,
            rust.state_frame(),
            "without areas the Rust keeps another state"
        );
        self.as_the_rust += 1;
    }

    /// What a step of a flight passed through.
    fn count(&mut self, setup: &Setup, old: &State, held: &Held, t: &Telemetry, call: &Call) {
        let counts = &mut self.counts;
        let out = &call.output;
        counts.add("areas held", held.len());
        counts.add("action", out[4]);
        if out[4] < old.arbiter.prev_output.rank() && !held.is_empty() {
            counts.add("met", "a step down beside areas");
        }
        match out[SIDE] {
            AREA_SIDE => counts.add("side", "254"),
            255 => counts.add("side", "255"),
            _ => counts.add("side", "the fence's"),
        }
        let (Some(sample), 1) = (t.position, out[DISTANCE]) else {
            return;
        };
        let p = Point2 {
            n: sample.pos.n,
            e: sample.pos.e,
        };
        let fence = setup.geofence.poly.signed_distance(p);
        let areas = read_areas(&call.areas).expect("areas");
        let nearest = areas.clearance(&setup.geofence, p).m;
        if out[SIDE] != AREA_SIDE {
            if areas.values(p).any(|m| m == fence) {
                counts.add("met", "an area as near as the fence");
            }
            return;
        }
        let mut met = |yes: bool, what: &str| {
            if yes {
                counts.add("met", what);
            }
        };
        met(
            areas.values(p).filter(|&m| m == nearest).count() > 1,
            "two areas as near",
        );
        met(nearest.to_bits() == (-0.0f32).to_bits(), "-0");
        met(out[APPROACH] == 1, "approach of an area");
        met(out[BREACH] == 1, "an area entered");
        met(
            out[BREACH] == 1 && fence < 0.0,
            "an area entered outside the fence",
        );
        met(nearest < 0.0 && fence > 0.0, "in an area, inside the fence");
        met(
            nearest == setup.cfg.fence_approach_m,
            "exactly fence_approach_m",
        );
        met(
            nearest == setup.cfg.fence_breach_clear_m,
            "exactly fence_breach_clear_m",
        );
    }

    /// A call beside the flight with one fault or several, mostly declined.
    fn decline(&mut self, sound: &Call, held: &Held) -> Result<(), String> {
        let random = &mut self.random;
        let mut call = sound.clone();
        for _ in 0..1 + random.below(3) {
            match random.below(16) {
                0 => damage(random, &mut call.config),
                1 => damage(random, &mut call.fence),
                2 | 3 => damage(random, &mut call.state),
                4 | 5 => damage(random, &mut call.telemetry),
                6 => call.output.truncate(random.below(97)),
                7 => call.fence = break_fence(random),
                8 => {
                    if let Ok(config) = call.config.as_mut_slice().try_into() {
                        break_config(random, config);
                    }
                }
                9 => {
                    let ring = ring_near(random, (200.0, 0.0), 0.0);
                    call.areas = area_frame(&area_body(1, &ring));
                }
                10 => std::mem::swap(&mut call.telemetry, &mut call.areas),
                _ => call.areas = break_areas(random, &held.bodies()),
            }
        }
        let given = call.clone();
        let number = self.sides.step(&mut call)?;
        self.declined += (number != 0) as u64;
        self.count_declined(&given, number);
        Ok(())
    }

    fn count_declined(&mut self, given: &Call, number: u32) {
        let counts = &mut self.counts;
        let areas = read_areas(&given.areas).err();
        let accepted = accepted(&given.config, &given.fence);
        if accepted && areas.is_some() {
            counts.add("step, areas", number);
        } else {
            counts.add("step, the rest", number);
        }
        let mut also = |other: bool, what: &str| {
            if areas.is_some() && other {
                counts.add("two faults", what);
            }
        };
        let telemetry = read_frame::<Telemetry>(TELEMETRY, &given.telemetry);
        also(!accepted, "configuration or fence, areas");
        also(
            accepted && State::read_frame(&given.state).is_err(),
            "areas, state",
        );
        also(accepted && telemetry.is_err(), "areas, telemetry");
        also(accepted && given.output.len() < SIDE_FRAME, "areas, output");
    }
}

fn accepted(config: &[u8], fence: &[u8]) -> bool {
    let fence = read_fence(fence).and_then(|sent| fence_open(&sent));
    match (read_frame::<Config>(CONFIG, config), fence) {
        (Ok(cfg), Ok(fence)) => validate_config(&cfg, &fence).is_ok(),
        _ => false,
    }
}
