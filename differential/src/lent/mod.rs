//! Random calls by the exported functions, each buffer in a heap block of its own and of exactly
//! the length lent. Under valgrind, whatever a call reads or writes outside of them is reported,
//! and so is an answer that depends on bytes that do not matter: these are made undefined.

mod trial;

use crate::case::{Buffers, Call, Lengths};
use crate::memcheck;
use crate::side::EXPORTED;
use crate::tally::{QUESTIONS, Tally};
use girvotal::exported::SHORT_ANSWER;
use reference::calls::{Sizes, sizes};

/// What a refused call writes.
const NOTHING: Lengths = Lengths {
    store: 0,
    work: 0,
    list: 0,
    output: 0,
    answer: 0,
};

/// One call with what it is lent.
#[derive(Clone, Debug)]
pub struct Trial {
    pub call: Call,
    pub catalogue: Vec<u8>,
    pub buffers: Buffers,
}

/// What a catalogue asks for, if it is one.
fn asked(catalogue: &[u8]) -> Option<Sizes> {
    sizes(catalogue).ok()
}

impl Trial {
    /// Makes undefined what does not matter: all buffers but the store, and of the store what is
    /// past its used part; all of it for classify, and where the catalogue is refused or the
    /// store too short.
    fn forget(&mut self) {
        let Buffers {
            store,
            work,
            list,
            output,
            answer,
        } = &mut self.buffers;
        let used = match self.call {
            Call::Classify => 0,
            _ => asked(&self.catalogue).map_or(0, |sizes| sizes.store),
        };
        let read = if used <= store.len() { used } else { 0 };
        memcheck::make_undefined(&mut store[read..]);
        memcheck::make_undefined(work);
        memcheck::make_undefined(list);
        memcheck::make_undefined(output);
        memcheck::make_undefined(answer);
    }

    /// How much of each buffer an accepted call writes.
    fn written(&self) -> Lengths {
        let sizes = asked(&self.catalogue).expect("an accepted catalogue");
        let answer = &self.buffers.answer;
        let none = Lengths {
            answer: 4,
            ..NOTHING
        };
        let (store, work) = (sizes.store, sizes.work);
        match self.call {
            Call::Check | Call::Lookup(..) | Call::Row(_) => none,
            Call::Classify => Lengths {
                store,
                work,
                ..none
            },
            Call::Change { .. } => Lengths {
                store,
                work,
                list: 2 * answer[3] as usize,
                ..none
            },
            Call::List(_) => Lengths {
                list: 2 * answer[0] as usize,
                ..none
            },
            Call::Write => Lengths {
                output: answer[0] as usize,
                ..none
            },
        }
    }

    /// Makes the call; the number returned. What was written is defined, all else is kept, and the
    /// number is one of the call's. Else, or if valgrind has reported something, what is wrong.
    pub fn make(mut self, tally: &mut Tally) -> Result<usize, String> {
        let (before, errors) = (self.clone(), memcheck::errors());
        self.forget();
        let lengths = self.buffers.lengths();
        let mut lent = self.buffers.lend(lengths);
        let returned = (EXPORTED.make)(&self.call, &self.catalogue, &mut lent);
        let left = self.left(returned, &before);
        let quiet = require(memcheck::errors() == errors, "valgrind reports it");
        let done = quiet.and(left);
        done.map_err(|what| format!("{what}: {returned} is returned by {before:?}"))?;
        tally.begin(&[]);
        tally.count(&self.call, returned, &self.buffers.answer);
        Ok(returned)
    }

    /// Looks at what a call leaves that returned a number.
    fn left(&mut self, returned: usize, before: &Trial) -> Result<(), &'static str> {
        let written = match returned {
            0 => {
                memcheck::check_defined(&self.buffers.answer[..4]);
                self.written()
            }
            _ => NOTHING,
        };
        let (left, right) = (&mut self.buffers, &before.buffers);
        memcheck::check_defined(&left.store[..written.store]);
        memcheck::check_defined(&left.work[..written.work]);
        memcheck::check_defined(&left.list[..written.list]);
        memcheck::check_defined(&left.output[..written.output]);
        let kept = kept(&mut left.store, &right.store, written.store)
            & kept(&mut left.work, &right.work, written.work)
            & kept(&mut left.list, &right.list, written.list)
            & kept(&mut left.output, &right.output, written.output)
            & kept(&mut left.answer, &right.answer, written.answer);
        require(kept, "a byte of a buffer is not kept")?;
        let read = (&self.catalogue, &self.call) == (&before.catalogue, &before.call);
        require(read, "a byte that is only read is changed")?;
        let zero = left.work[..written.work].iter().all(|&byte| byte == 0);
        require(zero, "work is left")?;
        let mut asked = QUESTIONS
            .iter()
            .filter(|(name, _)| *name == self.call.name());
        let (_, asked) = asked.next().expect("a call's questions");
        let number = returned % 65_536;
        require(
            [0, SHORT_ANSWER].contains(&number) || asked.contains(&number),
            "no question",
        )
    }
}

fn require(holds: bool, what: &'static str) -> Result<(), &'static str> {
    if holds { Ok(()) } else { Err(what) }
}

/// Whether a buffer is as it was from a place on; all of it is taken for defined then.
fn kept<T: PartialEq>(left: &mut [T], before: &[T], from: usize) -> bool {
    memcheck::make_defined(left);
    left[from..] == before[from..]
}
