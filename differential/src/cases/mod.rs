//! Cases by their seed: a catalogue and a list of calls on one store.

mod pokes;

use crate::case::{Buffers, Call, Case, Damage, Lengths, Step, fill};
use crate::catalogues::{SHAPES, Shape, Size, catalogue};
use crate::damages::damage;
use crate::lists::Lists;
use reference::calls::sizes;
use reference::catalogue::{Axiom, Catalogue, MAX_CONCEPTS};
use reference::random::Random;
use std::collections::BTreeSet;

/// How much longer than needed a buffer may be.
const SPARE: usize = 9;

/// The most entries of an answer.
const ENTRIES: usize = 6;

/// Makes the steps, and keeps account of the axioms in force.
struct Maker<'r> {
    random: &'r mut Random,
    catalogue: Catalogue,
    bytes: Vec<u8>,
    /// What the catalogue asks for.
    used: Lengths,
    whole: Lengths,
    in_force: BTreeSet<Axiom>,
    steps: Vec<Step>,
}

/// The size and the shape of a seed: mostly tiny.
fn kind(random: &mut Random) -> (Size, Shape) {
    let shape = SHAPES[random.below(SHAPES.len())];
    match random.below(1000) {
        0..900 => (Size::Tiny, shape),
        900..985 => (Size::Small, shape),
        985..997 => (Size::Middle, shape),
        997 => (Size::Middle, Shape::Full),
        _ if shape == Shape::Equal => (Size::Large, Shape::Chain),
        _ => (Size::Large, shape),
    }
}

/// The case of a seed.
pub fn case(seed: u64) -> Case {
    let random = &mut Random::new(seed);
    let (size, shape) = kind(random);
    let n = match shape {
        Shape::Full => 65 + random.below(8),
        _ => size.concepts(random),
    };
    let catalogue = catalogue(random, shape, n);
    let calls = match size {
        Size::Tiny => 10 + random.below(30),
        Size::Small => 8 + random.below(20),
        Size::Middle => 8 + random.below(10),
        Size::Large => 5,
    };
    let mut case = steps(random, catalogue, calls);
    case.name = format!("seed {seed}");
    case.groups = vec![size.name(), shape.name()];
    if n.is_multiple_of(8) {
        case.groups.push("rows of whole bytes");
    }
    if n == MAX_CONCEPTS {
        case.groups.push("512 concepts");
    }
    case
}

/// A case of so many calls and a few more.
fn steps(random: &mut Random, catalogue: Catalogue, calls: usize) -> Case {
    let mut maker = Maker::new(random, catalogue);
    let mut buffers = Buffers::new(maker.whole);
    fill(maker.random, &mut buffers.store);
    if maker.random.below(20) > 0 {
        maker.call(Call::Classify);
    } else {
        buffers.store.fill(0);
        maker.in_force.clear();
        maker.wrong_store();
    }
    for _ in 0..calls {
        maker.step();
    }
    maker.axioms_past_the_limit();
    Case {
        name: String::new(),
        groups: vec![],
        catalogue: maker.bytes,
        buffers,
        steps: maker.steps,
    }
}

impl Maker<'_> {
    fn new(random: &mut Random, catalogue: Catalogue) -> Maker<'_> {
        let bytes = catalogue.bytes();
        let sizes = sizes(&bytes).expect("an accepted catalogue");
        let used = Lengths {
            store: sizes.store,
            work: sizes.work,
            list: sizes.list,
            // Not the most that write gives, but what it gives after some changes.
            output: sizes.output.min(bytes.len() + 400),
            answer: 4,
        };
        let mut longer = |length: usize| length + random.below(SPARE);
        let whole = Lengths {
            store: longer(used.store),
            work: longer(used.work),
            list: longer(used.list),
            output: longer(used.output),
            answer: ENTRIES,
        };
        let in_force = catalogue.axioms.iter().copied().collect();
        Maker {
            random,
            catalogue,
            bytes,
            used,
            whole,
            in_force,
            steps: vec![],
        }
    }

    fn concepts(&self) -> usize {
        self.catalogue.concepts.len()
    }

    /// One call, or a few with something wrong between them.
    fn step(&mut self) {
        match self.random.below(100) {
            0..30 => self.change(),
            30..42 => {
                let lists = Lists::faulty(self.random, &self.catalogue, &self.in_force);
                self.change_by(lists);
            }
            42..70 => {
                let call = self.reading();
                self.call(call);
            }
            70..74 => self.call(Call::Classify),
            74..81 => self.wrong_store(),
            81..84 => self.spare_bit(),
            84..92 => self.damaged(),
            92..98 => self.short(),
            _ => self.short_answer(),
        }
    }

    /// A right change.
    fn change(&mut self) {
        let lists = Lists::right(self.random, &self.catalogue, &self.in_force);
        self.change_by(lists.bytes());
        self.in_force = lists.after(&self.in_force);
    }

    fn change_by(&mut self, [withdrawn, added]: [Vec<u8>; 2]) {
        self.call(Call::Change { withdrawn, added });
    }

    /// A concept's number, sometimes too high.
    fn number(&mut self) -> usize {
        let n = self.concepts();
        match self.random.below(20) {
            0 => n + self.random.below(3),
            1 => [65_535, 65_536, 1 << 32, usize::MAX][self.random.below(4)],
            _ => self.random.below(n),
        }
    }

    /// A call that changes no store.
    fn reading(&mut self) -> Call {
        match self.random.below(7) {
            0..3 => Call::Lookup(self.number(), self.number()),
            3 => Call::List(self.number()),
            4 => Call::Row(self.number()),
            5 => Call::Write,
            _ => Call::Check,
        }
    }

    /// Any call, with right lists.
    fn any(&mut self) -> (Call, Lists) {
        let lists = Lists::right(self.random, &self.catalogue, &self.in_force);
        let call = match self.random.below(7) {
            0 => Call::Classify,
            1 | 2 => {
                let [withdrawn, added] = lists.bytes();
                Call::Change { withdrawn, added }
            }
            _ => self.reading(),
        };
        (call, lists)
    }

    /// Lengths that are enough: exactly, or more.
    fn enough(&mut self) -> Lengths {
        let random = &mut *self.random;
        let mut length = |used: usize, whole: usize| match random.below(3) {
            0 => used,
            1 => whole,
            _ => used + random.below(whole + 1 - used),
        };
        let (used, whole) = (self.used, self.whole);
        Lengths {
            store: length(used.store, whole.store),
            work: length(used.work, whole.work),
            list: length(used.list, whole.list),
            output: length(used.output, whole.output),
            answer: length(used.answer, whole.answer),
        }
    }

    fn make(&mut self, call: Call, damage: Damage, lent: Lengths) {
        let fill = self.random.below(1 << 20) as u64;
        self.steps.push(Step::Make {
            call,
            damage,
            lent,
            fill,
        });
    }

    /// A call on enough of each buffer.
    fn call(&mut self, call: Call) {
        let lent = self.enough();
        if call == Call::Classify {
            self.in_force = self.catalogue.axioms.iter().copied().collect();
        }
        self.make(call, Damage::default(), lent);
    }

    /// A call with one buffer too short, mostly by one byte.
    fn short(&mut self) {
        let (call, _) = self.any();
        let written = self.catalogue.length_with(self.in_force.len());
        let mut lent = self.enough();
        let lengths = [
            (&mut lent.store, self.used.store),
            (&mut lent.work, self.used.work),
            (&mut lent.list, self.used.list),
            (&mut lent.output, written.min(self.used.output)),
        ];
        let which = match call {
            Call::Write => [0, 3][self.random.below(2)],
            Call::Classify => self.random.below(2),
            Call::List(_) => [0, 2][self.random.below(2)],
            Call::Change { .. } => self.random.below(3),
            _ => 0,
        };
        for (i, (length, least)) in lengths.into_iter().enumerate() {
            if i == which {
                *length = match self.random.below(3) {
                    0 => self.random.below(least),
                    _ => least - 1,
                };
            } else if i == 3 && self.random.below(2) == 0 {
                // Exactly what is written.
                *length = least;
            }
        }
        self.make(call, Damage::default(), lent);
    }

    fn short_answer(&mut self) {
        let (call, _) = self.any();
        let mut lent = self.enough();
        lent.answer = self.random.below(4);
        self.make(call, Damage::default(), lent);
    }

    /// A call on another catalogue, mostly a damaged one. Where that is accepted it may change the
    /// axioms in force.
    fn damaged(&mut self) {
        let damage = damage(self.random, &self.catalogue);
        let (call, lists) = self.any();
        if let Ok(other) = Catalogue::read(&damage.applied(&self.bytes)) {
            match call {
                Call::Classify => self.in_force = other.axioms.into_iter().collect(),
                Call::Change { .. } => self.in_force = lists.after(&self.in_force),
                _ => {}
            }
        }
        let lent = self.enough();
        self.make(call, damage, lent);
    }
}
