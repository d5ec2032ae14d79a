//! Calls as rows, and what the plain Rust entries make of them.

use std::collections::BTreeMap;
use std::path::Path;

use frames::{
    TELEMETRY_FRAME, add_area_entry, fresh_entry, remove_area_entry, step_areas_entry, step_entry,
    step_side_entry,
};
use words::{digest, line, packed};

/// tests/replay/calls.c has the same numbers.
#[derive(Clone, Copy, PartialEq, Eq, PartialOrd, Ord, Debug)]
pub enum Entry {
    Step = 0x60,
    Side = 0x61,
    Areas = 0x62,
    Add = 0x63,
    Remove = 0x64,
    Fresh = 0x65,
    Check = 0x66,
}

const CONFIG: usize = 0;
const FENCE: usize = 1;
const STATE: usize = 2;
const TELEMETRY: usize = 3;
const OUTPUT: usize = 4;
const AREAS: usize = 5;
const AREA: usize = 6;

impl Entry {
    /// The buffers that it is handed, in order.
    fn handed(self) -> &'static [usize] {
        match self {
            Entry::Step | Entry::Side => &[CONFIG, FENCE, STATE, TELEMETRY, OUTPUT],
            Entry::Areas => &[CONFIG, FENCE, STATE, TELEMETRY, OUTPUT, AREAS],
            Entry::Add => &[AREAS, AREA, OUTPUT],
            Entry::Remove => &[AREAS, OUTPUT],
            Entry::Fresh => &[STATE],
            Entry::Check => &[CONFIG, FENCE],
        }
    }
}

/// What a call hands over.
#[derive(Clone, Default)]
pub struct Call {
    pub config: Vec<u8>,
    pub fence: Vec<u8>,
    pub state: Vec<u8>,
    pub telemetry: Vec<u8>,
    pub output: Vec<u8>,
    pub areas: Vec<u8>,
    pub area: Vec<u8>,
    /// The number of the area that is taken out.
    pub number: u8,
}

impl Call {
    fn buffer(&self, which: usize) -> &[u8] {
        match which {
            CONFIG => &self.config,
            FENCE => &self.fence,
            STATE => &self.state,
            TELEMETRY => &self.telemetry,
            OUTPUT => &self.output,
            AREAS => &self.areas,
            _ => &self.area,
        }
    }

    /// What the entry answers; state and output are then as it leaves them.
    pub fn answer(&mut self, entry: Entry) -> u32 {
        let Call {
            config,
            fence,
            state,
            telemetry,
            output,
            areas,
            area,
            number,
        } = self;
        match entry {
            Entry::Step => step_entry(config, fence, state, telemetry, output),
            Entry::Side => step_side_entry(config, fence, state, telemetry, output),
            Entry::Areas => step_areas_entry(config, fence, state, telemetry, output, areas),
            Entry::Add => add_area_entry(areas, area, output),
            Entry::Remove => remove_area_entry(areas, *number, output),
            Entry::Fresh => fresh_entry(state),
            Entry::Check => check(config, fence),
        }
    }
}

/// A step whose other buffers are sound.
fn check(config: &[u8], fence: &[u8]) -> u32 {
    let mut state = [0; frames::STATE_FRAME];
    assert_eq!(fresh_entry(&mut state), 0);
    let mut telemetry = [0; TELEMETRY_FRAME];
    telemetry[..4].copy_from_slice(&[104, 0, 3, 0]);
    step_entry(config, fence, &mut state, &telemetry, &mut [0; 95])
}

/// A buffer by what is new against the old one, cut or filled up with zeros to its length: length, where the first new byte
/// stands, how many there are to the last, and these.
fn news(old: &[u8], new: &[u8]) -> Vec<u32> {
    let mut old = old.to_vec();
    old.resize(new.len(), 0);
    let differs = |k: &usize| old[*k] != new[*k];
    let first = (0..new.len()).find(differs).unwrap_or(0);
    let end = (0..new.len()).rfind(differs).map_or(first, |last| last + 1);
    let mut all = vec![new.len() as u32, first as u32, (end - first) as u32];
    all.extend(packed(&new[first..end]));
    all
}

#[derive(Default)]
pub struct Rows {
    rows: String,
    answers: String,
    last: Call,
    counts: BTreeMap<(Entry, u32), usize>,
}

impl Rows {
    /// Files the call, and leaves in it what the entry left.
    pub fn call(&mut self, entry: Entry, call: &mut Call) -> u32 {
        let mut asked = Vec::new();
        if entry == Entry::Remove {
            asked.push(call.number as u32);
        }
        for &which in entry.handed() {
            asked.extend(news(self.last.buffer(which), call.buffer(which)));
        }
        let given = call.clone();
        let number = call.answer(entry);
        if number != 0 {
            assert_eq!((&given.state, &given.output), (&call.state, &call.output));
        }
        let mut answer = vec![number];
        for &which in entry.handed() {
            if matches!(which, STATE | OUTPUT) {
                answer.extend(digest(call.buffer(which)));
            }
        }
        // Only what the entry was handed is known to whoever reads the list.
        let before = std::mem::replace(&mut self.last, call.clone());
        self.last.keep(&before, entry);
        let head = [entry as u32, asked.len() as u32];
        line(&mut self.rows, head.iter().chain(&asked));
        line(&mut self.answers, answer.iter());
        *self.counts.entry((entry, number)).or_default() += 1;
        number
    }

    /// What has to be there, and is not.
    pub fn missing(&self) -> Vec<String> {
        let rules: Vec<u32> = (10..19).chain(20..29).chain([33]).collect();
        let frames = [0, 1, 2, 3, 4];
        let mut due = Vec::new();
        for entry in [Entry::Step, Entry::Side, Entry::Areas] {
            due.extend(frames.into_iter().chain([5]).map(|n| (entry, n)));
        }
        for entry in [Entry::Step, Entry::Check] {
            due.extend(frames.iter().chain(&rules).map(|&n| (entry, n)));
        }
        due.extend([30, 31, 32, 33].map(|n| (Entry::Areas, n)));
        due.extend([0, 1, 2, 3, 5, 30, 31, 32, 33].map(|n| (Entry::Add, n)));
        due.extend([0, 1, 2, 3, 5, 31].map(|n| (Entry::Remove, n)));
        due.extend([0, 5].map(|n| (Entry::Fresh, n)));
        due.retain(|key| !self.counts.contains_key(key));
        due.iter()
            .map(|(entry, number)| format!("{entry:?} {number}"))
            .collect()
    }

    pub fn report(&self) {
        for ((entry, number), count) in &self.counts {
            eprintln!("{entry:?} {number}: {count}");
        }
        eprintln!("rows: {}", self.counts.values().sum::<usize>());
    }

    pub fn write(&self, folder: &Path) -> std::io::Result<()> {
        std::fs::create_dir_all(folder)?;
        std::fs::write(folder.join("rows"), &self.rows)?;
        std::fs::write(folder.join("answers"), &self.answers)
    }
}

impl Call {
    /// Takes back the buffers that the entry was not handed.
    fn keep(&mut self, before: &Call, entry: Entry) {
        let handed = |which: usize| entry.handed().contains(&which);
        let pairs = [
            (CONFIG, &mut self.config, &before.config),
            (FENCE, &mut self.fence, &before.fence),
            (STATE, &mut self.state, &before.state),
            (TELEMETRY, &mut self.telemetry, &before.telemetry),
            (OUTPUT, &mut self.output, &before.output),
            (AREAS, &mut self.areas, &before.areas),
            (AREA, &mut self.area, &before.area),
        ];
        for (which, mine, old) in pairs {
            if !handed(which) {
                mine.clone_from(old);
            }
        }
    }
}
