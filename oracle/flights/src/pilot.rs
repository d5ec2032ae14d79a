//! Telemetry, step after step, that seeks the boundaries: the next reading is a pending hold's start plus its
//! limit, or one beside it; values stand at thresholds and one float to either side; stamps stand at the limits
//! of freshness; the clock starts anywhere, wraps, and has rows of faults.

use failsafe_open::{
    BatteryInputs, Config, GpsFix, GpsSample, LandedState, Point2, PositionSample, Stamped,
    Telemetry, Vec3, rtl_energy,
};
use frames::State;
use random::Random;

use crate::limits::{at_limit, beside};
use crate::setup::Setup;
use crate::timers::holds;

/// How a reading is for a while.
#[derive(Clone, Copy, PartialEq)]
enum Mode {
    Good,
    Bad,
    Edge,
    Absent,
    /// With the stamp that it had when it got stale.
    Stale(u32),
    /// Refused by the bounds.
    Unfit,
}

const POSITION: usize = 0;
const GPS: usize = 1;
const VOLTAGE: usize = 2;
const PERCENT: usize = 3;
const REMAINING: usize = 4;
const LINK: usize = 5;
const ARMED: usize = 6;
const LANDED: usize = 7;
const RC: usize = 8;
const EKF: usize = 9;

/// Where the vehicle is meant to be.
#[derive(Clone, Copy)]
enum Place {
    Inside,
    NearSide,
    Outside,
    High,
    Low,
    Jump,
}

pub struct Pilot {
    /// One in this many picks of a mode is not Good.
    trouble: usize,
    modes: [Mode; 10],
    place: Place,
    pos: Vec3,
    /// Steps of the row of faults that are still to come.
    faults: usize,
    begun: bool,
    /// Jumps and velocities along all three axes. The fixed list's flights have them along one.
    wide: bool,
}

impl Pilot {
    pub fn new(random: &mut Random) -> Self {
        Pilot {
            trouble: random.one_of(&[2, 4, 12, 40]),
            modes: [Mode::Good; 10],
            place: Place::Inside,
            pos: Vec3 {
                n: 0.0,
                e: 0.0,
                d: -40.0,
            },
            faults: 0,
            begun: false,
            wide: false,
        }
    }

    /// One whose jumps and velocities go along all three axes.
    pub fn wide(random: &mut Random) -> Self {
        Pilot {
            wide: true,
            ..Pilot::new(random)
        }
    }

    /// The next telemetry, from what the state before it holds.
    pub fn next(&mut self, random: &mut Random, setup: &Setup, state: &State) -> Telemetry {
        let now = self.reading(random, setup, state);
        self.pick_modes(random, state, now);
        self.move_on(random, setup, state, now);
        self.telemetry(random, setup, now)
    }

    fn reading(&mut self, random: &mut Random, setup: &Setup, state: &State) -> u32 {
        let Some(last) = state.last_now.filter(|_| self.begun) else {
            self.begun = true;
            let starts = [0, 1, 0x7FFF_F000, 0x8000_0000, 0xFFFF_F000, random.u32()];
            return random.one_of(&starts);
        };
        if self.faults == 0 && random.chance(60) {
            self.faults = 1 + random.below(7);
        }
        if self.faults > 0 {
            self.faults -= 1;
            let back = [
                1,
                2,
                1 + random.below(5000) as u32,
                0x7FFF_FFFF,
                0x8000_0000,
                1 << 30,
            ];
            return last.wrapping_sub(random.one_of(&back));
        }
        if random.chance(2)
            && let Some(sought) = seek(random, setup, state, last)
        {
            return sought;
        }
        let ahead = match random.below(40) {
            0 => 0,
            1 => random.one_of(&[0x7FFF_FFFF, 0x7FFF_FFFE, 0x4000_0000, 1 << 20]),
            2..=5 => 1000 + random.below(20_000) as u32,
            6..=12 => 200 + random.below(2000) as u32,
            _ => 1 + random.below(300) as u32,
        };
        last.wrapping_add(ahead)
    }

    fn pick_modes(&mut self, random: &mut Random, state: &State, now: u32) {
        let t = &state.triggers;
        if (t.battery_critical_latched || t.energy_infeasible_latched) && random.chance(20) {
            // Else a flight stays at Land for good.
            self.modes = [Mode::Good; 10];
            self.modes[ARMED] = Mode::Bad;
        }
        for (channel, mode) in self.modes.iter_mut().enumerate() {
            // A confirmed disarm resets almost all, so it comes seldom and passes soon.
            let armed = channel == ARMED;
            if armed && *mode != Mode::Good && random.chance(2) {
                *mode = Mode::Good;
            }
            if !random.chance(if armed { 40 } else { 10 }) {
                continue;
            }
            *mode = if random.chance(self.trouble) {
                match random.below(8) {
                    0..=2 => Mode::Bad,
                    3 | 4 => Mode::Edge,
                    5 => Mode::Absent,
                    6 => Mode::Stale(now),
                    _ => Mode::Unfit,
                }
            } else {
                Mode::Good
            };
        }
        if random.chance(12) {
            let calm = !random.chance(self.trouble);
            self.place = match random.below(if self.wide { 10 } else { 8 }) {
                _ if calm => Place::Inside,
                0 | 1 => Place::NearSide,
                2 | 3 => Place::Outside,
                4 | 8 => Place::High,
                5 | 6 | 9 => Place::Low,
                _ => Place::Jump,
            };
        }
    }

    /// Too high or too low for a while, lest the timers of the altitude start anew at every step.
    fn stays(&self, random: &mut Random, low: f32, high: f32) -> bool {
        let alt = -self.pos.d;
        match self.place {
            Place::High => alt > high && !random.chance(4),
            Place::Low => alt < low && !random.chance(4),
            _ => false,
        }
    }

    /// A new position for the place, or a small move; at times at the filter's limit from the stored one.
    fn move_on(&mut self, random: &mut Random, setup: &Setup, state: &State, now: u32) {
        let fence = &setup.geofence;
        let (low, high) = (fence.min_alt_m, fence.max_alt_m);
        let middle = (low + high) / 2.0;
        let inner = Point2 { n: 0.0, e: 0.0 };
        let fresh = random.chance(6);
        let mut to = self.pos;
        if self.wide && self.stays(random, low, high) {
            return;
        }
        match self.place {
            Place::Inside => {
                if fresh {
                    to = Vec3 {
                        n: random.between(-15.0, 15.0),
                        e: random.between(-15.0, 15.0),
                        d: -middle,
                    };
                }
                to.n += random.between(-0.5, 0.5);
            }
            Place::NearSide => {
                let c = &setup.cfg;
                let wanted = [0.0, c.fence_approach_m, c.fence_breach_clear_m, 1.0];
                let way = random_way(random);
                let at = if self.wide && random.chance(8) {
                    fence.poly.vertex(random.below(fence.poly.len()))
                } else {
                    toward_side(random, setup, way, inner, &wanted)
                };
                to = Vec3 {
                    n: at.n,
                    e: at.e,
                    d: -middle,
                };
            }
            Place::Outside => {
                if fresh || fence.poly.contains(Point2 { n: to.n, e: to.e }) {
                    let way = random_way(random);
                    let far = random.one_of(&[50.0, 700.0, 6000.0]);
                    to = Vec3 {
                        n: way.0 * far,
                        e: way.1 * far,
                        d: -middle,
                    };
                }
            }
            Place::High => {
                let off = setup.cfg.alt_max_clear_m;
                let edge = random.one_of(&[high, high - off, high + 3.0, high + 30.0]);
                to.d = -beside(random, edge);
            }
            Place::Low => {
                let edge =
                    random.one_of(&[low, low + setup.cfg.alt_min_clear_m, low - 1.0, low - 2.0]);
                to.d = -beside(random, edge);
                let radius = setup.cfg.alt_min_home_radius_m;
                let far = random.one_of(&[
                    radius,
                    radius.next_up(),
                    radius.next_down(),
                    19.0,
                    60.0,
                    60.0,
                ]);
                (to.n, to.e) = (far, 0.0);
            }
            Place::Jump => {
                if let Some(last) = state.glitch.last_accepted {
                    let seconds = now.wrapping_sub(last.t_ms) as f32 / 1000.0;
                    let limit = setup.cfg.v_max * seconds * 2.0 + 5.0;
                    to = if self.wide {
                        at_limit(random, last.pos, limit)
                    } else {
                        let off = beside(random, limit);
                        Vec3 {
                            n: last.pos.n + off,
                            ..last.pos
                        }
                    };
                }
            }
        }
        self.pos = to;
    }

    fn telemetry(&mut self, random: &mut Random, setup: &Setup, now: u32) -> Telemetry {
        let c = &setup.cfg;
        let modes = self.modes;
        let status = |random: &mut Random, channel: usize| {
            stamp(random, modes[channel], now, c.status_fresh_ms).map(|t_ms| Stamped {
                t_ms,
                value: match modes[channel] {
                    Mode::Bad => false,
                    Mode::Edge if self.wide => !random.chance(3),
                    Mode::Unfit => random.chance(2),
                    _ => true,
                },
            })
        };
        Telemetry {
            now_ms: now,
            position: self.position(random, setup, now),
            gps: gps(random, modes[GPS], now, c),
            battery: self.battery(random, setup, now),
            gcs_heartbeat_ms: heartbeat(random, modes[LINK], now, c),
            armed: status(random, ARMED),
            landed: stamp(random, modes[LANDED], now, c.status_fresh_ms).map(|t_ms| Stamped {
                t_ms,
                value: match modes[LANDED] {
                    Mode::Good => LandedState::InAir,
                    Mode::Bad => LandedState::OnGround,
                    Mode::Edge if self.wide && random.chance(2) => LandedState::InAir,
                    _ => random.one_of(&[
                        LandedState::Undefined,
                        LandedState::OnGround,
                        LandedState::InAir,
                        LandedState::Takeoff,
                        LandedState::Landing,
                    ]),
                },
            }),
            rc_ok: status(random, RC),
            ekf_ok: status(random, EKF),
        }
    }

    fn position(&self, random: &mut Random, setup: &Setup, now: u32) -> Option<PositionSample> {
        let mode = self.modes[POSITION];
        let t_ms = stamp(random, mode, now, setup.cfg.pos_fresh_ms)?;
        let mut sample = PositionSample {
            t_ms,
            pos: self.pos,
            vel: self.velocity(random),
        };
        if mode == Mode::Unfit {
            let values = [
                10_000.0,
                10_000f32.next_up(),
                f32::NAN,
                f32::INFINITY,
                -10_001.0,
            ];
            let altitudes = [
                -2000.0,
                (-2000f32).next_down(),
                100.0,
                100f32.next_up(),
                f32::NAN,
            ];
            let speeds = [100.0, 100f32.next_up(), f32::NAN, f32::MAX, 60.0];
            match random.below(4) {
                0 => sample.pos.n = random.one_of(&values),
                1 => sample.pos.e = random.one_of(&values),
                2 => sample.pos.d = random.one_of(&altitudes),
                _ => {
                    sample.vel.n = random.one_of(&speeds);
                    sample.vel.d = random.one_of(&[0.0, 80.0, f32::NEG_INFINITY]);
                }
            }
        }
        Some(sample)
    }

    fn velocity(&self, random: &mut Random) -> Vec3 {
        let still = Vec3 {
            n: 0.0,
            e: 0.0,
            d: 0.0,
        };
        if !self.wide {
            return Vec3 { n: 1.0, ..still };
        }
        let edge = self.modes[POSITION] == Mode::Edge;
        if random.chance(if edge { 3 } else { 100 }) {
            return at_limit(random, still, 100.0);
        }
        Vec3 {
            n: random.between(-10.0, 10.0),
            e: random.between(-10.0, 10.0),
            d: random.between(-10.0, 10.0),
        }
    }

    fn battery(&self, random: &mut Random, setup: &Setup, now: u32) -> BatteryInputs {
        let c = &setup.cfg;
        let mut reading = |channel: usize, good: f32, bad: &[f32], edges: &[f32], most: f32| {
            let mode = self.modes[channel];
            stamp(random, mode, now, c.battery_fresh_ms).map(|t_ms| Stamped {
                t_ms,
                value: match mode {
                    Mode::Bad => random.one_of(bad),
                    Mode::Edge => {
                        let edge = random.one_of(edges);
                        beside(random, edge)
                    }
                    Mode::Unfit => {
                        random.one_of(&[-0.0, -1.0, f32::NAN, f32::INFINITY, most, most.next_up()])
                    }
                    _ => good,
                },
            })
        };
        let full = c.usable_capacity_wh;
        let estimate = rtl_energy(c, self.pos, None);
        let home = estimate.rtl_wh + c.reserve_wh;
        let critical_v = c.battery_critical_v_per_cell * c.cell_count as f32;
        let edges_v = [critical_v, 0.0];
        let limits = [
            c.battery_warn_pct,
            c.battery_warn_clear_pct,
            c.battery_low_pct,
            c.battery_low_clear_pct,
            c.battery_critical_pct,
        ];
        let part = |percent: f32| percent / 100.0 * full;
        let edges_r = [
            home,
            home + c.energy_marginal_wh,
            home + c.energy_marginal_clear_wh,
            estimate.land_wh,
            part(c.battery_warn_pct),
            part(c.battery_low_pct),
            part(c.battery_critical_pct),
        ];
        BatteryInputs {
            voltage_v: reading(
                VOLTAGE,
                critical_v + 2.0,
                &[critical_v - 1.0, 1.0],
                &edges_v,
                100.0,
            ),
            percent: reading(PERCENT, 80.0, &[25.0, 15.0, 5.0, 0.0], &limits, 100.0),
            remaining_wh: reading(
                REMAINING,
                full * 0.9,
                &[
                    part(25.0),
                    part(15.0),
                    part(5.0),
                    home + c.energy_marginal_wh / 2.0,
                    home / 2.0,
                ],
                &edges_r,
                full * 1.1,
            ),
        }
    }
}

/// A pending hold's start plus its limit, or one beside it, where that is ahead. Also the stored sample's 2000.
fn seek(random: &mut Random, setup: &Setup, state: &State, last: u32) -> Option<u32> {
    let mut ends = [0; 28];
    let mut count = 0;
    let stored = state.glitch.last_accepted.map(|sample| (sample.t_ms, 2000));
    let pending = holds(state, &setup.cfg);
    let pending = pending
        .iter()
        .filter_map(|hold| Some((hold.since_ms?, hold.limit_ms)));
    for (since, limit) in pending.chain(stored) {
        let end = since.wrapping_add(limit);
        let ahead = end.wrapping_sub(last);
        if ahead > 0 && ahead < 0x7FFF_FFFF {
            ends[count] = end;
            count += 1;
        }
    }
    let mut near = &mut ends[..count];
    if near.is_empty() {
        return None;
    }
    // Mostly one of the nearest ends, lest the far ones pass over them all.
    if random.chance(2) {
        near.sort_by_key(|end| end.wrapping_sub(last));
        let few = near.len().min(3);
        near = &mut near[..few];
    }
    Some(
        random
            .one_of(near)
            .wrapping_add(random.below(3) as u32)
            .wrapping_sub(1),
    )
}

/// The stamp of a reading in this mode.
fn stamp(random: &mut Random, mode: Mode, now: u32, limit: u32) -> Option<u32> {
    let age = match mode {
        Mode::Absent => return None,
        Mode::Stale(since) => return Some(since),
        Mode::Edge => {
            let near = [limit.wrapping_sub(1), limit, limit.wrapping_add(1)];
            let far = [0, u32::MAX, 0x7FFF_FFFF, 0x8000_0000];
            if random.chance(4) {
                random.one_of(&far)
            } else {
                random.one_of(&near)
            }
        }
        _ => random.below(limit.clamp(1, 50) as usize) as u32,
    };
    Some(now.wrapping_sub(age))
}

fn heartbeat(random: &mut Random, mode: Mode, now: u32, c: &Config) -> Option<u32> {
    let limits = [c.gcs_clear_ms, c.gcs_warn_ms, c.gcs_hold_ms, c.gcs_rtl_ms];
    let age = match mode {
        Mode::Absent => return None,
        Mode::Stale(since) => return Some(since),
        Mode::Good => random.below(50) as u32,
        Mode::Bad => random
            .one_of(&limits)
            .wrapping_add(1 + random.below(500) as u32),
        Mode::Edge => random
            .one_of(&limits)
            .wrapping_add(random.below(3) as u32)
            .wrapping_sub(1),
        Mode::Unfit => random.one_of(&[u32::MAX, 0x8000_0000, 0x7FFF_FFFF]),
    };
    Some(now.wrapping_sub(age))
}

fn gps(random: &mut Random, mode: Mode, now: u32, c: &Config) -> Option<GpsSample> {
    let t_ms = stamp(random, mode, now, c.gps_fresh_ms)?;
    let (sats, hdop) = ([7, 8, 9, 10, 11, 0, 255], [2.0, 2.5, 0.0, 100.0]);
    let edge = random.one_of(&hdop);
    let edge = beside(random, edge);
    let fixes = [GpsFix::None, GpsFix::Fix2D, GpsFix::Fix3D, GpsFix::Fix3D];
    let unfit = [f32::NAN, f32::INFINITY, -1.0, 100f32.next_up(), -0.0];
    let sample = match mode {
        Mode::Good | Mode::Stale(_) => (GpsFix::Fix3D, Some(14), Some(0.9)),
        Mode::Bad if random.chance(2) => (GpsFix::Fix2D, Some(5), Some(4.0)),
        Mode::Bad => (GpsFix::Fix3D, Some(5), Some(1.0)),
        Mode::Unfit => (GpsFix::Fix3D, Some(14), Some(random.one_of(&unfit))),
        _ => (
            random.one_of(&fixes),
            (!random.chance(5)).then(|| random.one_of(&sats)),
            (!random.chance(5)).then_some(edge),
        ),
    };
    let (fix, sats, hdop) = sample;
    Some(GpsSample {
        t_ms,
        fix,
        sats,
        hdop,
    })
}

fn random_way(random: &mut Random) -> (f32, f32) {
    random.one_of(&[
        (1.0, 0.0),
        (0.0, 1.0),
        (-1.0, 0.0),
        (0.0, -1.0),
        (0.6, 0.8),
        (-0.8, 0.6),
    ])
}

/// The point on a ray from an inner one whose distance to the sides is about one of those wanted.
fn toward_side(
    random: &mut Random,
    setup: &Setup,
    way: (f32, f32),
    from: Point2,
    wanted: &[f32],
) -> Point2 {
    let wanted = random.one_of(wanted);
    let on = |far: f32| Point2 {
        n: from.n + way.0 * far,
        e: from.e + way.1 * far,
    };
    let (mut near, mut far) = (0.0f32, 9000.0f32);
    for _ in 0..40 {
        let middle = (near + far) / 2.0;
        if setup.geofence.poly.signed_distance(on(middle)) > wanted {
            near = middle;
        } else {
            far = middle;
        }
    }
    on(random.one_of(&[near, far]))
}
