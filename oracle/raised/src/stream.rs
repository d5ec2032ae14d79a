//! Streams for `decide` whose configuration is of kind 11: flights that flicker, with areas or not; whole, damaged, cut off,
//! or with a frame that is not due.

use std::path::Path;

use flights::{Pilot, damage};
use frames::{
    RAISED_STATE_FRAME, Raised, State, TELEMETRY, TELEMETRY_FRAME, fresh_raised_entry, put_frame,
    step_raised,
};
use random::Random;

use crate::flicker::{self, Flicker};
use crate::fly::areas_near;
use crate::kind_eleven;

fn flight(random: &mut Random, steps: usize) -> Vec<Vec<u8>> {
    let setup = flicker::setup(random);
    let (mut pilot, mut flicker) = (Pilot::new(random), Flicker::new(random));
    let with_areas = random.chance(3);
    let mut config = setup.config.to_vec();
    kind_eleven(&mut config);
    let mut all = vec![config, setup.fence.clone()];
    let mut supervisor = State::fresh().with(setup.cfg, setup.geofence);
    let mut raised = Raised::default();
    for _ in 0..steps {
        let mut t = pilot.next(random, &setup, &State::of(&supervisor));
        flicker.apply(random, &setup.cfg, &mut t);
        step_raised(&mut supervisor, &mut raised, &t);
        if with_areas && random.chance(6) {
            all.push(areas_near(random, &t));
        }
        let mut frame = vec![0; TELEMETRY_FRAME];
        put_frame(TELEMETRY, &t, &mut frame);
        all.push(frame);
    }
    all
}

fn stream(random: &mut Random, case: u64) -> Vec<u8> {
    let steps = random.one_of(&[1, 3, 40, 400, 800]);
    let mut all = flight(random, steps);
    let at = random.below(all.len());
    match case % 6 {
        3 => damage(random, &mut all[at]),
        4 => {
            let bytes = all.concat();
            return bytes[..random.below(bytes.len() + 1)].to_vec();
        }
        5 => {
            let mut state = vec![0; RAISED_STATE_FRAME];
            fresh_raised_entry(&mut state);
            let odd = if random.chance(2) {
                state
            } else {
                all[0].clone()
            };
            all.insert(1 + at, odd);
        }
        _ => {}
    }
    all.concat()
}

/// A file for each stream.
pub fn write(folder: &str, streams: u64, seed: u64) -> Result<(), String> {
    let mut random = Random::new(seed);
    for case in 0..streams {
        let path = Path::new(folder).join(format!("{case:03}.frames"));
        std::fs::write(path, stream(&mut random, case)).map_err(|error| error.to_string())?;
    }
    Ok(())
}
