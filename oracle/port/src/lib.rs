//! The port's entries, as C sees them: linked from libfailsafe.a, or, with the feature `standin`, played by the
//! plain Rust entries; and both sides' calls on the same bytes.

mod sides;
#[cfg(feature = "standin")]
mod slips;
#[cfg(feature = "standin")]
mod slips_wide;
#[cfg(feature = "standin")]
mod standin;

pub use sides::{Call, Entry, Sides};

unsafe extern "C" {
    fn failsafe_step(
        config: *const u8,
        config_len: usize,
        fence: *const u8,
        fence_len: usize,
        state: *mut u8,
        state_len: usize,
        telemetry: *const u8,
        telemetry_len: usize,
        output: *mut u8,
        output_len: usize,
    ) -> u32;
    fn failsafe_step_side(
        config: *const u8,
        config_len: usize,
        fence: *const u8,
        fence_len: usize,
        state: *mut u8,
        state_len: usize,
        telemetry: *const u8,
        telemetry_len: usize,
        output: *mut u8,
        output_len: usize,
    ) -> u32;
    fn failsafe_step_areas(
        config: *const u8,
        config_len: usize,
        fence: *const u8,
        fence_len: usize,
        state: *mut u8,
        state_len: usize,
        telemetry: *const u8,
        telemetry_len: usize,
        output: *mut u8,
        output_len: usize,
        areas: *const u8,
        areas_len: usize,
    ) -> u32;
    fn failsafe_add_area(
        areas: *const u8,
        areas_len: usize,
        area: *const u8,
        area_len: usize,
        output: *mut u8,
        output_len: usize,
    ) -> u32;
    fn failsafe_remove_area(
        areas: *const u8,
        areas_len: usize,
        number: u8,
        output: *mut u8,
        output_len: usize,
    ) -> u32;
    fn failsafe_inside(
        fence: *const u8,
        fence_len: usize,
        points: *const u8,
        points_len: usize,
        output: *mut u8,
        output_len: usize,
    ) -> u32;
    fn failsafe_fresh(state: *mut u8, state_len: usize) -> u32;
    fn failsafe_fresh_raised(state: *mut u8, state_len: usize) -> u32;
    fn failsafe_fresh_wide(state: *mut u8, state_len: usize) -> u32;
    fn failsafe_widen(
        old: *const u8,
        old_len: usize,
        last_now: u64,
        new: *mut u8,
        new_len: usize,
    ) -> u32;
    #[cfg(not(feature = "standin"))]
    fn failsafe_check(
        config: *const u8,
        config_len: usize,
        fence: *const u8,
        fence_len: usize,
    ) -> u32;
    #[cfg(not(feature = "standin"))]
    fn failsafe_merge(
        config: *const u8,
        config_len: usize,
        fence: *const u8,
        fence_len: usize,
        first: *const u8,
        first_len: usize,
        second: *const u8,
        second_len: usize,
        output: *mut u8,
        output_len: usize,
    ) -> u32;
    #[cfg(not(feature = "standin"))]
    fn failsafe_spell_fence(
        fence: *const u8,
        fence_len: usize,
        output: *mut u8,
        output_len: usize,
    ) -> u32;
}

/// What `failsafe_check` answers; the stand-in has no such entry.
#[cfg(not(feature = "standin"))]
pub fn check(config: &[u8], fence: &[u8]) -> Option<u32> {
    // SAFETY: two slices that are alive.
    Some(unsafe { failsafe_check(config.as_ptr(), config.len(), fence.as_ptr(), fence.len()) })
}

#[cfg(feature = "standin")]
pub fn check(_config: &[u8], _fence: &[u8]) -> Option<u32> {
    None
}

pub fn step(
    config: &[u8],
    fence: &[u8],
    state: &mut [u8],
    telemetry: &[u8],
    output: &mut [u8],
) -> u32 {
    // SAFETY: five slices that are alive and do not overlap.
    unsafe {
        failsafe_step(
            config.as_ptr(),
            config.len(),
            fence.as_ptr(),
            fence.len(),
            state.as_mut_ptr(),
            state.len(),
            telemetry.as_ptr(),
            telemetry.len(),
            output.as_mut_ptr(),
            output.len(),
        )
    }
}

pub fn step_side(
    config: &[u8],
    fence: &[u8],
    state: &mut [u8],
    telemetry: &[u8],
    output: &mut [u8],
) -> u32 {
    // SAFETY: five slices that are alive and do not overlap.
    unsafe {
        failsafe_step_side(
            config.as_ptr(),
            config.len(),
            fence.as_ptr(),
            fence.len(),
            state.as_mut_ptr(),
            state.len(),
            telemetry.as_ptr(),
            telemetry.len(),
            output.as_mut_ptr(),
            output.len(),
        )
    }
}

pub fn step_areas(
    config: &[u8],
    fence: &[u8],
    state: &mut [u8],
    telemetry: &[u8],
    output: &mut [u8],
    areas: &[u8],
) -> u32 {
    // SAFETY: six slices that are alive and do not overlap.
    unsafe {
        failsafe_step_areas(
            config.as_ptr(),
            config.len(),
            fence.as_ptr(),
            fence.len(),
            state.as_mut_ptr(),
            state.len(),
            telemetry.as_ptr(),
            telemetry.len(),
            output.as_mut_ptr(),
            output.len(),
            areas.as_ptr(),
            areas.len(),
        )
    }
}

pub fn add_area(areas: &[u8], area: &[u8], output: &mut [u8]) -> u32 {
    // SAFETY: three slices that are alive and do not overlap.
    unsafe {
        failsafe_add_area(
            areas.as_ptr(),
            areas.len(),
            area.as_ptr(),
            area.len(),
            output.as_mut_ptr(),
            output.len(),
        )
    }
}

pub fn remove_area(areas: &[u8], number: u8, output: &mut [u8]) -> u32 {
    // SAFETY: two slices that are alive and do not overlap.
    unsafe {
        failsafe_remove_area(
            areas.as_ptr(),
            areas.len(),
            number,
            output.as_mut_ptr(),
            output.len(),
        )
    }
}

pub fn fresh(state: &mut [u8]) -> u32 {
    // SAFETY: a slice that is alive.
    unsafe { failsafe_fresh(state.as_mut_ptr(), state.len()) }
}

pub fn fresh_raised(state: &mut [u8]) -> u32 {
    // SAFETY: a slice that is alive.
    unsafe { failsafe_fresh_raised(state.as_mut_ptr(), state.len()) }
}

pub fn fresh_wide(state: &mut [u8]) -> u32 {
    // SAFETY: a slice that is alive.
    unsafe { failsafe_fresh_wide(state.as_mut_ptr(), state.len()) }
}

pub fn widen(old: &[u8], last_now: u64, new: &mut [u8]) -> u32 {
    // SAFETY: two slices that are alive and do not overlap.
    unsafe {
        failsafe_widen(
            old.as_ptr(),
            old.len(),
            last_now,
            new.as_mut_ptr(),
            new.len(),
        )
    }
}

/// A step by one of the three entries. The stand-in has slips of kind 11's rule.
#[cfg(not(feature = "standin"))]
pub fn step_raised(
    entry: Entry,
    config: &[u8],
    fence: &[u8],
    state: &mut [u8],
    telemetry: &[u8],
    output: &mut [u8],
    areas: &[u8],
) -> u32 {
    match entry {
        Entry::Plain => step(config, fence, state, telemetry, output),
        Entry::Side => step_side(config, fence, state, telemetry, output),
        Entry::Areas => step_areas(config, fence, state, telemetry, output, areas),
    }
}

#[cfg(feature = "standin")]
pub use standin::step_raised;

/// A step by one of the three entries. The stand-in has slips of the 64-bit clock.
#[cfg(not(feature = "standin"))]
pub use step_raised as step_wide;

#[cfg(feature = "standin")]
pub use standin::step_wide;

/// What `failsafe_merge` answers; the stand-in has no such entry.
#[cfg(not(feature = "standin"))]
pub fn merge(
    config: &[u8],
    fence: &[u8],
    first: &[u8],
    second: &[u8],
    output: &mut [u8],
) -> Option<u32> {
    // SAFETY: five slices that are alive and do not overlap.
    Some(unsafe {
        failsafe_merge(
            config.as_ptr(),
            config.len(),
            fence.as_ptr(),
            fence.len(),
            first.as_ptr(),
            first.len(),
            second.as_ptr(),
            second.len(),
            output.as_mut_ptr(),
            output.len(),
        )
    })
}

#[cfg(feature = "standin")]
pub fn merge(
    _config: &[u8],
    _fence: &[u8],
    _first: &[u8],
    _second: &[u8],
    _output: &mut [u8],
) -> Option<u32> {
    None
}

pub fn inside(fence: &[u8], points: &[u8], output: &mut [u8]) -> u32 {
    // SAFETY: three slices that are alive and do not overlap.
    unsafe {
        failsafe_inside(
            fence.as_ptr(),
            fence.len(),
            points.as_ptr(),
            points.len(),
            output.as_mut_ptr(),
            output.len(),
        )
    }
}

#[cfg(not(feature = "standin"))]
pub fn spell_fence(fence: &[u8], output: &mut [u8]) -> u32 {
    // SAFETY: two slices that are alive and do not overlap.
    unsafe {
        failsafe_spell_fence(
            fence.as_ptr(),
            fence.len(),
            output.as_mut_ptr(),
            output.len(),
        )
    }
}
