//! Document 02, L3, in plain Rust: keep-out areas in their frames, clearance, and the Rust's own step with clearance for
//! its distance.

use failsafe_open as rust;

use crate::NO_ROOM;
use crate::bytes::{Field, body};
use crate::codec::{Corners, polygon_open};
use crate::side::side_of;

pub const AREA: u16 = 7;
pub const AREAS: u16 = 13;
/// So many are held at most.
pub const AREAS_HELD: usize = 8;
/// The side byte where an area is nearest.
pub const AREA_SIDE: u8 = 254;

const HOME: rust::Point2 = rust::Point2 { n: 0.0, e: 0.0 };

#[derive(Clone, Copy)]
struct Area {
    number: u8,
    poly: rust::ConvexPolygon,
}

/// The areas held, in order of number.
#[derive(Clone, Copy, Default)]
pub struct Areas {
    at: [Option<Area>; AREAS_HELD],
    count: usize,
}

/// What is nearest to a point: the distance, and whether an area gives it.
#[derive(Clone, Copy, Debug)]
pub struct Clearance {
    pub m: f32,
    pub of_area: bool,
}

impl Areas {
    pub fn is_empty(&self) -> bool {
        self.count == 0
    }

    fn has(&self, number: u8) -> bool {
        self.at.iter().flatten().any(|area| area.number == number)
    }

    /// A body judged: its polygon, its number, a ninth, home.
    #[inline]
    fn judge(&self, body: &[u8], wrong_number: bool) -> Result<Area, u32> {
        let poly = polygon_open(&Corners::read(body[1], &body[2..]), true)?;
        if wrong_number || body[0] == 0 || self.has(body[0]) {
            return Err(31);
        }
        if self.count == AREAS_HELD {
            return Err(30);
        }
        if poly.signed_distance(HOME) > 0.0 {
            return Err(32);
        }
        Ok(Area {
            number: body[0],
            poly,
        })
    }

    /// Minus each area's signed distance, in order of number.
    pub fn values(&self, p: rust::Point2) -> impl Iterator<Item = f32> {
        let held = self.at.iter().flatten();
        held.map(move |area| -area.poly.signed_distance(p))
    }

    /// At equality the fence's, then the lowest number's.
    #[inline]
    pub fn clearance(&self, fence: &rust::Geofence, p: rust::Point2) -> Clearance {
        let mut nearest = Clearance {
            m: fence.poly.signed_distance(p),
            of_area: false,
        };
        for m in self.values(p) {
            if m < nearest.m {
                nearest = Clearance { m, of_area: true };
            }
        }
        nearest
    }
}

// ---- frames

/// The body at the front of some bytes, by its corner count, and what follows it.
fn split_body(bytes: &[u8]) -> Option<(&[u8], &[u8])> {
    bytes.split_at_checked(2 + 8 * *bytes.get(1)? as usize)
}

/// The whole bodies from the front of some bytes.
fn bodies(mut bytes: &[u8]) -> impl Iterator<Item = &[u8]> + Clone {
    std::iter::from_fn(move || {
        let (body, rest) = split_body(bytes)?;
        bytes = rest;
        Some(body)
    })
}

/// A count, and as many bodies behind it.
fn counts_fit(body: &[u8]) -> bool {
    let Some((&count, behind)) = body.split_first() else {
        return false;
    };
    let whole = bodies(behind);
    whole.clone().count() == count as usize && whole.map(<[u8]>::len).sum::<usize>() == behind.len()
}

/// The bodies of a frame that was read.
fn bodies_in(frame: &[u8]) -> impl Iterator<Item = &[u8]> + Clone {
    bodies(frame.get(5..).unwrap_or_default())
}

/// Kind 13, its bodies added one by one; no byte is no area.
#[inline]
pub fn read_areas(frame: &[u8]) -> Result<Areas, u32> {
    let mut areas = Areas::default();
    if frame.is_empty() {
        return Ok(areas);
    }
    body(frame, AREAS, counts_fit)?;
    let mut before = 0;
    for body in bodies_in(frame) {
        areas.at[areas.count] = Some(areas.judge(body, body[0] <= before)?);
        areas.count += 1;
        before = body[0];
    }
    Ok(areas)
}

/// A kind 13 frame of these bodies; later bytes stay.
fn write_areas<'a>(
    bodies: impl Iterator<Item = &'a [u8]> + Clone,
    output: &mut [u8],
) -> Result<(), u32> {
    let size = 5 + bodies.clone().map(<[u8]>::len).sum::<usize>();
    let to = output.get_mut(..size).ok_or(NO_ROOM)?;
    ((size - 2) as u16).write(to);
    AREAS.write(&mut to[2..]);
    to[4] = bodies.clone().count() as u8;
    let mut at = 5;
    for body in bodies {
        to[at..at + body.len()].copy_from_slice(body);
        at += body.len();
    }
    Ok(())
}

fn add(areas: &[u8], area: &[u8], output: &mut [u8]) -> Result<(), u32> {
    let held = read_areas(areas)?;
    let fits = |body: &[u8]| split_body(body).is_some_and(|(_, rest)| rest.is_empty());
    let new = body(area, AREA, fits)?;
    held.judge(new, false)?;
    let before = bodies_in(areas).filter(|body| body[0] < new[0]);
    let after = bodies_in(areas).filter(|body| body[0] > new[0]);
    write_areas(before.chain([new]).chain(after), output)
}

fn remove(areas: &[u8], number: u8, output: &mut [u8]) -> Result<(), u32> {
    if !read_areas(areas)?.has(number) {
        return Err(31);
    }
    write_areas(bodies_in(areas).filter(|body| body[0] != number), output)
}

/// 0, or the refusal's number with the output left as it was.
pub fn add_area_entry(areas: &[u8], area: &[u8], output: &mut [u8]) -> u32 {
    add(areas, area, output).err().unwrap_or(0)
}

/// 0, or the refusal's number with the output left as it was.
pub fn remove_area_entry(areas: &[u8], number: u8, output: &mut [u8]) -> u32 {
    remove(areas, number, output).err().unwrap_or(0)
}

// ---- a step

/// A fence far beyond every position, or none of whose sides is there, as the clearance is at least 0 or below it.
pub(crate) fn stand_in_fence(fence: &rust::Geofence, clearance: f32) -> rust::Geofence {
    const FAR: f32 = 1e6;
    let mut poly = fence.poly;
    let square = [(-FAR, -FAR), (FAR, -FAR), (FAR, FAR), (-FAR, FAR)];
    for (corner, (n, e)) in poly.verts.iter_mut().zip(square) {
        *corner = rust::Point2 { n, e };
    }
    poly.len = if clearance >= 0.0 { 4 } else { 0 };
    rust::Geofence { poly, ..*fence }
}

/// The limits that the Rust compares the distance with, put beyond every distance on the side where the clearance has them.
pub(crate) fn stand_in_config(cfg: &rust::Config, clearance: f32) -> rust::Config {
    let beyond = |above: bool| {
        if above {
            f32::INFINITY
        } else {
            f32::NEG_INFINITY
        }
    };
    let clear = clearance >= cfg.fence_breach_clear_m;
    rust::Config {
        fence_approach_m: beyond(clearance < cfg.fence_approach_m),
        fence_breach_clear_m: beyond(!clear),
        ..*cfg
    }
}

/// The Rust's own step with the clearance for its distance, and the side byte. The Rust looks at the distance in three ways
/// alone: is it below 0, is it below fence_approach_m, is it at least fence_breach_clear_m. So it steps under a fence and two
/// limits that give the clearance's answers, and the distance that it reports is then replaced. Where no area is held this is
/// the Rust's step bit for bit, which oracle/areas tries.
pub fn step_clear(
    supervisor: &mut rust::Supervisor,
    areas: &Areas,
    raw: &rust::Telemetry,
) -> (rust::Decision, u8) {
    step_clear_by(supervisor, areas, raw, rust::Supervisor::step)
}

/// The same with another step than the Rust's, which looks at the distance in no other way.
pub fn step_clear_by(
    supervisor: &mut rust::Supervisor,
    areas: &Areas,
    raw: &rust::Telemetry,
    step: impl FnOnce(&mut rust::Supervisor, &rust::Telemetry) -> rust::Decision,
) -> (rust::Decision, u8) {
    let (cfg, fence) = (supervisor.cfg, supervisor.fence);
    let nearest = raw.position.map(|sample| {
        let (n, e) = (sample.pos.n, sample.pos.e);
        areas.clearance(&fence, rust::Point2 { n, e })
    });
    if let Some(nearest) = nearest {
        supervisor.cfg = stand_in_config(&cfg, nearest.m);
        supervisor.fence = stand_in_fence(&fence, nearest.m);
    }
    let mut decision = step(supervisor, raw);
    (supervisor.cfg, supervisor.fence) = (cfg, fence);
    // A sample that was refused has no distance.
    let nearest = nearest.filter(|_| decision.fence_dist_m.is_some());
    decision.fence_dist_m = nearest.map(|nearest| nearest.m);
    let side = match nearest {
        Some(Clearance { of_area: true, .. }) => AREA_SIDE,
        _ => side_of(&fence, raw, &decision),
    };
    (decision, side)
}
