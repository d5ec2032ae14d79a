//! The bodies of document 01 as letters, one for each field, from which frames are drawn and by which their
//! bytes that can be refused are found. A field: b, h, u unsigned of 1, 2 and 4 bytes; f a float; F a float
//! that has to be finite; g a flag; x fix, l landed state, a action, r reason, s the link's stage, k the
//! streak of backward clocks; brackets an Option.

use frames::{CONFIG, DECISION, REFUSAL, STATE, TELEMETRY};
use random::Random;

pub struct Layout {
    pub kind: u16,
    pub fields: &'static str,
    /// How many sound frames are drawn, and how many with several faults.
    pub sound: usize,
    pub several: usize,
}

pub const KINDS: [Layout; 5] = [
    Layout {
        kind: CONFIG,
        fields: "bfg uuuuu uuuuu uuuuuuuu ffufu fuu fufu u ffuu ffuu ffu ffuu uuu ffffffffff",
        sound: 40,
        several: 50,
    },
    Layout {
        kind: TELEMETRY,
        fields: "u (uffffff) (ux(b)(f)) (uf)(uf)(uf) (u) (ug)(ul)(ug)(ug)",
        sound: 80,
        several: 100,
    },
    Layout {
        kind: DECISION,
        fields: "ara (ra)(ra)(ra)(ra)(ra)(ra)(ra)(ra)(ra)(ra)(ra)(ra)(ra)(ra)(ra)(ra)(ra)(ra)(ra) \
                 gg fff(f)(f)g (f)g",
        sound: 70,
        several: 80,
    },
    Layout {
        kind: STATE,
        fields: "gg (u)(u)(u)(u)(u)(u)(u)(u)(u)(u)(u)(u)(u)(u)(u)(u)(u)(u)(u)(u)(u)(u)(u)(u) g(u)s \
                 ar(u) (u) (uFFFFFF)b (u)u k g",
        sound: 60,
        several: 80,
    },
    Layout {
        kind: REFUSAL,
        fields: "h",
        sound: 4,
        several: 30,
    },
];

#[derive(Clone, Copy, PartialEq)]
pub enum Presence {
    None,
    All,
    Drawn,
}

/// A place in a frame that the reader checks.
#[derive(Clone, Copy, Debug, PartialEq)]
pub enum Checked {
    /// A byte that has to be below this.
    Below(u8),
    /// The bytes of an absent value, this many.
    Absent(usize),
    /// A float that has to be finite.
    Finite,
}

pub struct Drawn {
    pub frame: Vec<u8>,
    pub checked: Vec<(usize, Checked)>,
}

fn below(field: u8) -> u8 {
    match field {
        b'g' => 2,
        b'k' | b'x' => 3,
        b's' => 4,
        b'a' | b'l' => 5,
        b'r' => 19,
        _ => unreachable!("no such field"),
    }
}

fn width(field: u8) -> usize {
    match field {
        b' ' | b')' => 0,
        b'h' => 2,
        b'u' | b'f' | b'F' => 4,
        _ => 1,
    }
}

fn float(random: &mut Random) -> f32 {
    match random.below(4) {
        0 => random.special(),
        1 => random.any(),
        2 => random.scaled(),
        _ => random.between(-1000.0, 1000.0),
    }
}

fn finite(random: &mut Random) -> f32 {
    loop {
        let x = float(random);
        if x.is_finite() {
            return x;
        }
    }
}

impl Layout {
    /// A sound frame.
    pub fn draw(&self, random: &mut Random, presence: Presence) -> Drawn {
        let mut drawn = Drawn {
            frame: vec![0, 0],
            checked: Vec::new(),
        };
        drawn.frame.extend(self.kind.to_le_bytes());
        let fields = self.fields.as_bytes();
        let mut at = 0;
        while at < fields.len() {
            at = drawn.field(random, presence, fields, at);
        }
        let length = (drawn.frame.len() - 2) as u16;
        drawn.frame[..2].copy_from_slice(&length.to_le_bytes());
        drawn
    }
}

/// The place after the bracket that closes the one at `at`.
fn after(fields: &[u8], at: usize) -> usize {
    let mut depth = 0;
    for (k, &field) in fields.iter().enumerate().skip(at) {
        match field {
            b'(' => depth += 1,
            b')' => depth -= 1,
            _ => {}
        }
        if depth == 0 {
            return k + 1;
        }
    }
    unreachable!("a bracket is open")
}

impl Drawn {
    /// Adds the field at `at`, and says where the next one is.
    fn field(
        &mut self,
        random: &mut Random,
        presence: Presence,
        fields: &[u8],
        at: usize,
    ) -> usize {
        let here = self.frame.len();
        match fields[at] {
            b'(' => {
                self.checked.push((here, Checked::Below(2)));
                let end = after(fields, at);
                if presence == Presence::None || presence == Presence::Drawn && random.chance(2) {
                    let bytes = fields[at + 1..end].iter().map(|&x| width(x)).sum();
                    self.frame.extend(vec![0; 1 + bytes]);
                    self.checked.push((here + 1, Checked::Absent(bytes)));
                } else {
                    self.frame.push(1);
                    let mut k = at + 1;
                    while k < end {
                        k = self.field(random, presence, fields, k);
                    }
                }
                return end;
            }
            b' ' | b')' => {}
            b'b' => self.frame.push(random.u32() as u8),
            b'h' => self.frame.extend((random.u32() as u16).to_le_bytes()),
            b'u' => {
                let any = random.u32();
                let x = random.one_of(&[any, any, any % 100_000, 0, u32::MAX]);
                self.frame.extend(x.to_le_bytes());
            }
            b'f' => self.frame.extend(float(random).to_bits().to_le_bytes()),
            b'F' => {
                self.checked.push((here, Checked::Finite));
                self.frame.extend(finite(random).to_bits().to_le_bytes());
            }
            field => {
                self.checked.push((here, Checked::Below(below(field))));
                self.frame.push(random.below(below(field) as usize) as u8);
            }
        }
        at + 1
    }
}
