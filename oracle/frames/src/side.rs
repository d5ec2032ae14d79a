//! Document 02, L1, in plain Rust: the side that gives a Decision's fence distance, and the frame of kind 6.

use failsafe_open as rust;

use crate::{DECISION_FRAME, SIDE_FRAME};

pub const DECISION_SIDE: u16 = 6;

/// The Rust's own, which it does not hand out.
fn edge_signed_distance(a: rust::Point2, b: rust::Point2, p: rust::Point2) -> f32 {
    let (ab_n, ab_e) = (b.n - a.n, b.e - a.e);
    let len = (ab_n * ab_n + ab_e * ab_e).sqrt();
    if len < 1e-6 {
        return -1.0;
    }
    let (ap_n, ap_e) = (p.n - a.n, p.e - a.e);
    (ab_n * ap_e - ab_e * ap_n) / len
}

/// The first side, in held order, whose distance is the Decision's; 255 without a distance below infinity.
pub fn side_of(fence: &rust::Geofence, raw: &rust::Telemetry, decision: &rust::Decision) -> u8 {
    let place = raw.position.map(|sample| rust::Point2 {
        n: sample.pos.n,
        e: sample.pos.e,
    });
    side_at(fence, place, decision.fence_dist_m)
}

/// The same of a place and the distance there.
#[inline]
pub fn side_at(fence: &rust::Geofence, place: Option<rust::Point2>, dist: Option<f32>) -> u8 {
    let (Some(dist), Some(p)) = (dist, place) else {
        return 255;
    };
    let n = fence.poly.len();
    let side = (0..n).find(|&i| {
        let (a, b) = (fence.poly.vertex(i), fence.poly.vertex((i + 1) % n));
        let d = edge_signed_distance(a, b, p);
        d == dist && d < f32::INFINITY
    });
    side.map_or(255, |i| i as u8)
}

/// Kind 4's frame at the start of the output becomes kind 6's: one byte is put in after the fence distance.
pub fn put_side(side: u8, output: &mut [u8]) {
    output[SIDE_FRAME - 1] = output[DECISION_FRAME - 1];
    output[DECISION_FRAME - 1] = side;
    output[..2].copy_from_slice(&(SIDE_FRAME as u16 - 2).to_le_bytes());
    output[2..4].copy_from_slice(&DECISION_SIDE.to_le_bytes());
}
