//! Buffers, each with room around it that nobody may touch, and the plain Rust's and the port's calls on equal ones.

use frames::{
    Form, add_area_entry, fresh_entry, fresh_raised_entry, fresh_wide_entry, remove_area_entry,
    step_any, step_areas_entry, step_entry, step_side_entry, widen_entry,
};

/// Bytes before and after each buffer.
const AROUND: usize = 32;
/// No buffer is longer.
const MOST: usize = 70_000;

#[derive(Clone)]
struct Buffer {
    bytes: Box<[u8]>,
    len: usize,
}

impl Buffer {
    fn new() -> Self {
        Buffer {
            bytes: vec![0xA5; MOST + 2 * AROUND].into_boxed_slice(),
            len: 0,
        }
    }

    fn set(&mut self, content: &[u8]) {
        let end = AROUND + self.len.max(content.len());
        self.bytes[AROUND..end].fill(0xA5);
        self.len = content.len();
        self.used_mut().copy_from_slice(content);
    }

    fn used(&self) -> &[u8] {
        &self.bytes[AROUND..AROUND + self.len]
    }

    fn used_mut(&mut self) -> &mut [u8] {
        &mut self.bytes[AROUND..AROUND + self.len]
    }

    /// The buffer and what is around it.
    fn all(&self) -> &[u8] {
        &self.bytes[..self.len + 2 * AROUND]
    }
}

/// Which entry steps.
#[derive(Clone, Copy, Default, PartialEq)]
pub enum Entry {
    #[default]
    Plain,
    Side,
    Areas,
}

impl Entry {
    pub fn form(self, areas: &[u8]) -> Form<'_> {
        match self {
            Entry::Plain => Form::Plain,
            Entry::Side => Form::Side,
            Entry::Areas => Form::Areas(areas),
        }
    }
}

/// What a step is handed. Only the entry with areas is handed those.
#[derive(Clone, Default)]
pub struct Call {
    pub entry: Entry,
    pub config: Vec<u8>,
    pub fence: Vec<u8>,
    pub state: Vec<u8>,
    pub telemetry: Vec<u8>,
    pub output: Vec<u8>,
    pub areas: Vec<u8>,
}

/// The buffers of both sides.
pub struct Sides {
    rust: [Buffer; 6],
    port: [Buffer; 6],
}

impl Default for Sides {
    fn default() -> Self {
        Sides {
            rust: std::array::from_fn(|_| Buffer::new()),
            port: std::array::from_fn(|_| Buffer::new()),
        }
    }
}

impl Sides {
    /// Calls both sides on the same bytes, compares all they left, and hands back the number.
    fn beside<const N: usize>(
        &mut self,
        given: [(&str, &[u8]); N],
        rust: impl FnOnce(&mut [Buffer; N]) -> u32,
        port: impl FnOnce(&mut [Buffer; N]) -> u32,
    ) -> Result<u32, String> {
        for (k, (_, bytes)) in given.iter().enumerate() {
            self.rust[k].set(bytes);
            self.port[k].set(bytes);
        }
        let ours = self.rust.first_chunk_mut().expect("as many buffers");
        let theirs = self.port.first_chunk_mut().expect("as many buffers");
        let (rust, port) = (rust(ours), port(theirs));
        let mut told = String::new();
        if rust != port {
            told += &format!("returned: the Rust {rust}, the port {port}\n");
        }
        for ((name, _), (a, b)) in given.iter().zip(ours.iter().zip(theirs.iter())) {
            told += &difference(name, a.all(), b.all());
        }
        if told.is_empty() {
            return Ok(rust);
        }
        // The call's bytes, to try it again.
        for (name, bytes) in given {
            let hex: Vec<String> = bytes.iter().map(|byte| format!("{byte:02X}")).collect();
            told += &format!("given {name} ({} bytes): {}\n", bytes.len(), hex.join(" "));
        }
        Err(told)
    }

    /// Steps both sides. State and output are put back into the call.
    pub fn step(&mut self, call: &mut Call) -> Result<u32, String> {
        let entry = call.entry;
        let given: [(&str, &[u8]); 6] = [
            ("configuration", &call.config),
            ("fence", &call.fence),
            ("state", &call.state),
            ("telemetry", &call.telemetry),
            ("output", &call.output),
            ("areas", &call.areas),
        ];
        let number = self.beside(
            given,
            |[c, f, s, t, o, a]| {
                let (c, f, t, a) = (c.used(), f.used(), t.used(), a.used());
                let (s, o) = (s.used_mut(), o.used_mut());
                match entry {
                    Entry::Plain => step_entry(c, f, s, t, o),
                    Entry::Side => step_side_entry(c, f, s, t, o),
                    Entry::Areas => step_areas_entry(c, f, s, t, o, a),
                }
            },
            |[c, f, s, t, o, a]| {
                let (c, f, t, a) = (c.used(), f.used(), t.used(), a.used());
                let (s, o) = (s.used_mut(), o.used_mut());
                match entry {
                    Entry::Plain => crate::step(c, f, s, t, o),
                    Entry::Side => crate::step_side(c, f, s, t, o),
                    Entry::Areas => crate::step_areas(c, f, s, t, o, a),
                }
            },
        )?;
        call.state.copy_from_slice(self.rust[2].used());
        call.output.copy_from_slice(self.rust[4].used());
        Ok(number)
    }

    /// The same, where the stand-in has slips of kind 11's rule.
    pub fn step_raised(&mut self, call: &mut Call) -> Result<u32, String> {
        let entry = call.entry;
        let given: [(&str, &[u8]); 6] = [
            ("configuration", &call.config),
            ("fence", &call.fence),
            ("state", &call.state),
            ("telemetry", &call.telemetry),
            ("output", &call.output),
            ("areas", &call.areas),
        ];
        let number = self.beside(
            given,
            |[c, f, s, t, o, a]| {
                let (c, f, t) = (c.used(), f.used(), t.used());
                step_any(entry.form(a.used()), c, f, s.used_mut(), t, o.used_mut())
            },
            |[c, f, s, t, o, a]| {
                let (c, f, t, a) = (c.used(), f.used(), t.used(), a.used());
                crate::step_raised(entry, c, f, s.used_mut(), t, o.used_mut(), a)
            },
        )?;
        call.state.copy_from_slice(self.rust[2].used());
        call.output.copy_from_slice(self.rust[4].used());
        Ok(number)
    }

    /// The same with states and telemetry of all kinds, where the stand-in has slips of the 64-bit clock.
    pub fn step_wide(&mut self, call: &mut Call) -> Result<u32, String> {
        let entry = call.entry;
        let given: [(&str, &[u8]); 6] = [
            ("configuration", &call.config),
            ("fence", &call.fence),
            ("state", &call.state),
            ("telemetry", &call.telemetry),
            ("output", &call.output),
            ("areas", &call.areas),
        ];
        let number = self.beside(
            given,
            |[c, f, s, t, o, a]| {
                let (c, f, t) = (c.used(), f.used(), t.used());
                step_any(entry.form(a.used()), c, f, s.used_mut(), t, o.used_mut())
            },
            |[c, f, s, t, o, a]| {
                let (c, f, t, a) = (c.used(), f.used(), t.used(), a.used());
                crate::step_wide(entry, c, f, s.used_mut(), t, o.used_mut(), a)
            },
        )?;
        call.state.copy_from_slice(self.rust[2].used());
        call.output.copy_from_slice(self.rust[4].used());
        Ok(number)
    }

    pub fn fresh_wide(&mut self, state: &mut [u8]) -> Result<u32, String> {
        let number = self.beside(
            [("fresh state of kind 10", state)],
            |[s]| fresh_wide_entry(s.used_mut()),
            |[s]| crate::fresh_wide(s.used_mut()),
        )?;
        state.copy_from_slice(self.rust[0].used());
        Ok(number)
    }

    /// A state of kind 5 carried over to the 64-bit clock, which reads `last_now`.
    pub fn widen(&mut self, old: &[u8], last_now: u64, new: &mut [u8]) -> Result<u32, String> {
        let number = self.beside(
            [("old state", old), ("new state", new)],
            |[o, n]| widen_entry(o.used(), last_now, n.used_mut()),
            |[o, n]| crate::widen(o.used(), last_now, n.used_mut()),
        );
        let number = number.map_err(|told| format!("last_now: {last_now}\n{told}"))?;
        new.copy_from_slice(self.rust[1].used());
        Ok(number)
    }

    pub fn fresh_raised(&mut self, state: &mut [u8]) -> Result<u32, String> {
        let number = self.beside(
            [("fresh state of kind 12", state)],
            |[s]| fresh_raised_entry(s.used_mut()),
            |[s]| crate::fresh_raised(s.used_mut()),
        )?;
        state.copy_from_slice(self.rust[0].used());
        Ok(number)
    }

    pub fn fresh(&mut self, state: &mut [u8]) -> Result<u32, String> {
        let number = self.beside(
            [("fresh state", state)],
            |[s]| fresh_entry(s.used_mut()),
            |[s]| crate::fresh(s.used_mut()),
        )?;
        state.copy_from_slice(self.rust[0].used());
        Ok(number)
    }

    pub fn add_area(
        &mut self,
        areas: &[u8],
        area: &[u8],
        output: &mut [u8],
    ) -> Result<u32, String> {
        let number = self.beside(
            [("areas", areas), ("area", area), ("output", output)],
            |[a, b, o]| add_area_entry(a.used(), b.used(), o.used_mut()),
            |[a, b, o]| crate::add_area(a.used(), b.used(), o.used_mut()),
        )?;
        output.copy_from_slice(self.rust[2].used());
        Ok(number)
    }

    pub fn remove_area(
        &mut self,
        areas: &[u8],
        number: u8,
        output: &mut [u8],
    ) -> Result<u32, String> {
        let answer = self.beside(
            [("areas", areas), ("output", output)],
            |[a, o]| remove_area_entry(a.used(), number, o.used_mut()),
            |[a, o]| crate::remove_area(a.used(), number, o.used_mut()),
        );
        let answer = answer.map_err(|told| format!("number to remove: {number}\n{told}"))?;
        output.copy_from_slice(self.rust[1].used());
        Ok(answer)
    }
}

/// The first byte that differs, or nothing.
fn difference(name: &str, rust: &[u8], port: &[u8]) -> String {
    match rust.iter().zip(port).position(|(x, y)| x != y) {
        Some(at) => format!(
            "{name}: byte {} is {:02X} in the Rust's buffer, {:02X} in the port's\n",
            at as isize - AROUND as isize,
            rust[at],
            port[at]
        ),
        None => String::new(),
    }
}
