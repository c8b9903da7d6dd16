//! Calls, the buffers that they are lent, and lists of calls on one store.

use reference::random::Random;
use std::borrow::Cow;

/// A call with its arguments, the buffers left out.
#[derive(Clone, Debug, PartialEq, Eq)]
pub enum Call {
    Check,
    Classify,
    Change { withdrawn: Vec<u8>, added: Vec<u8> },
    Lookup(usize, usize),
    List(usize),
    Row(usize),
    Write,
}

impl Call {
    pub fn name(&self) -> &'static str {
        match self {
            Call::Check => "check",
            Call::Classify => "classify",
            Call::Change { .. } => "change",
            Call::Lookup(..) => "lookup",
            Call::List(_) => "list",
            Call::Row(_) => "row",
            Call::Write => "write",
        }
    }
}

/// How much of each buffer is lent: bytes, and entries of the answer.
#[derive(Clone, Copy, Debug, PartialEq, Eq)]
pub struct Lengths {
    pub store: usize,
    pub work: usize,
    pub list: usize,
    pub output: usize,
    pub answer: usize,
}

/// The buffers that a call is lent. A call takes those that it is declared with.
pub struct Lent<'a> {
    pub store: &'a mut [u8],
    pub work: &'a mut [u8],
    pub list: &'a mut [u8],
    pub output: &'a mut [u8],
    pub answer: &'a mut [u64],
}

/// The whole buffers, longer than what is lent of them.
#[derive(Clone, Debug, Default, PartialEq, Eq)]
pub struct Buffers {
    pub store: Vec<u8>,
    pub work: Vec<u8>,
    pub list: Vec<u8>,
    pub output: Vec<u8>,
    pub answer: Vec<u64>,
}

impl Buffers {
    /// Buffers of these lengths, all zero.
    pub fn new(lengths: Lengths) -> Buffers {
        Buffers {
            store: vec![0; lengths.store],
            work: vec![0; lengths.work],
            list: vec![0; lengths.list],
            output: vec![0; lengths.output],
            answer: vec![0; lengths.answer],
        }
    }

    pub fn lengths(&self) -> Lengths {
        Lengths {
            store: self.store.len(),
            work: self.work.len(),
            list: self.list.len(),
            output: self.output.len(),
            answer: self.answer.len(),
        }
    }

    /// The first parts of the buffers.
    pub fn lend(&mut self, lengths: Lengths) -> Lent<'_> {
        Lent {
            store: &mut self.store[..lengths.store],
            work: &mut self.work[..lengths.work],
            list: &mut self.list[..lengths.list],
            output: &mut self.output[..lengths.output],
            answer: &mut self.answer[..lengths.answer],
        }
    }

    /// Fills all but the store with bytes by a seed.
    pub fn fill(&mut self, seed: u64) {
        let random = &mut Random::new(seed);
        fill(random, &mut self.work);
        fill(random, &mut self.list);
        fill(random, &mut self.output);
        for entry in &mut self.answer {
            *entry = random.below(usize::MAX) as u64;
        }
    }
}

/// Fills bytes at random.
pub fn fill(random: &mut Random, bytes: &mut [u8]) {
    for part in bytes.chunks_mut(4) {
        let number = random.below(1 << 32).to_le_bytes();
        part.copy_from_slice(&number[..part.len()]);
    }
}

/// What is changed in a catalogue for one call: bytes, and then its length.
#[derive(Clone, Debug, Default, PartialEq, Eq)]
pub struct Damage {
    /// Offsets and the bytes that stand there instead.
    pub bytes: Vec<(usize, u8)>,
    /// It is cut to this length, or made as long by zeros.
    pub length: Option<usize>,
}

impl Damage {
    /// One byte changed.
    pub fn byte(at: usize, value: u8) -> Damage {
        Damage {
            bytes: vec![(at, value)],
            length: None,
        }
    }

    /// Another length.
    pub fn length(length: usize) -> Damage {
        Damage {
            bytes: vec![],
            length: Some(length),
        }
    }

    /// What makes one catalogue of another.
    pub fn between(old: &[u8], new: &[u8]) -> Damage {
        let old_byte = |at: usize| old.get(at).copied().unwrap_or(0);
        let bytes = new.iter().copied().enumerate();
        Damage {
            bytes: bytes.filter(|&(at, byte)| old_byte(at) != byte).collect(),
            length: (old.len() != new.len()).then_some(new.len()),
        }
    }

    pub fn is_none(&self) -> bool {
        *self == Damage::default()
    }

    /// The catalogue that the call is lent.
    pub fn applied<'c>(&self, catalogue: &'c [u8]) -> Cow<'c, [u8]> {
        if self.is_none() {
            return Cow::Borrowed(catalogue);
        }
        let mut damaged = catalogue.to_vec();
        damaged.resize(self.length.unwrap_or(catalogue.len()), 0);
        for &(at, value) in &self.bytes {
            if let Some(byte) = damaged.get_mut(at) {
                *byte = value;
            }
        }
        Cow::Owned(damaged)
    }
}

/// One step of a case.
#[derive(Clone, Debug, PartialEq, Eq)]
pub enum Step {
    /// Turns bits of a byte of the store.
    Poke { at: usize, mask: u8 },
    /// Makes a call.
    Make {
        call: Call,
        /// What is changed in the catalogue for this call.
        damage: Damage,
        lent: Lengths,
        /// What the buffers but the store are filled by.
        fill: u64,
    },
}

/// A catalogue, a store to begin with, and a list of calls.
#[derive(Clone, Debug, PartialEq, Eq)]
pub struct Case {
    /// How it was made: `seed 17`.
    pub name: String,
    /// What it is counted by: its size and its shape.
    pub groups: Vec<&'static str>,
    pub catalogue: Vec<u8>,
    pub buffers: Buffers,
    pub steps: Vec<Step>,
}

impl Case {
    /// How many calls it makes.
    pub fn calls(&self) -> usize {
        let made = |step: &&Step| matches!(step, Step::Make { .. });
        self.steps.iter().filter(made).count()
    }
}
