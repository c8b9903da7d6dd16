//! All that a run of the benchmark measures.

use crate::catalogues::{self, FAMILIES, Family, Named};
use crate::machine;
use crate::measures::classify::{self, Side};
use crate::measures::edits::{self, OneAxiom};
use crate::measures::reading;
use crate::memory::{self, Peaks};
use crate::timing::{Budget, timed};
use crate::whole::{self, Built, Whole};
use reference::catalogue::Catalogue;

/// How long each measurement may take.
#[derive(Clone, Copy)]
pub struct Budgets {
    pub classify: Budget,
    pub change: Budget,
    /// Of whole processes, on one catalogue.
    pub processes: Budget,
    /// How many averages there are of a call that reads a store.
    pub reading: usize,
    /// Milliseconds. Where a call of the library takes longer, its family is not
    /// measured from that size on.
    pub limit: f64,
}

impl Budgets {
    /// For the figures in docs/BENCHMARKS.md.
    pub const FULL: Budgets = Budgets {
        classify: Budget {
            milliseconds: 2000.0,
            least: 3,
            most: 100,
        },
        change: Budget {
            milliseconds: 1000.0,
            least: 4,
            most: 100,
        },
        processes: Budget {
            milliseconds: 10_000.0,
            least: 7,
            most: 31,
        },
        reading: 40,
        limit: 5000.0,
    };

    /// For a look.
    pub const QUICK: Budgets = Budgets {
        classify: Budget {
            milliseconds: 100.0,
            least: 2,
            most: 10,
        },
        change: Budget {
            milliseconds: 100.0,
            least: 2,
            most: 10,
        },
        processes: Budget {
            milliseconds: 1000.0,
            least: 3,
            most: 5,
        },
        reading: 10,
        limit: 1000.0,
    };
}

/// What one catalogue's calls cost.
pub struct Costs {
    pub concepts: usize,
    /// The bytes lent to classify and change.
    pub lent: usize,
    pub classify: classify::Cost,
    pub change: OneAxiom,
    pub reading: reading::Costs,
}

/// A call of the library that took longer than the limit, on a catalogue of so many
/// concepts.
#[derive(Clone, Copy, Debug, PartialEq)]
pub struct Slow {
    pub call: &'static str,
    pub concepts: usize,
    pub milliseconds: f64,
}

/// Measures the calls on a catalogue, classify by some sides; or what was slow.
fn costs(named: &Named, sides: &[Side], budgets: Budgets) -> Result<Costs, Slow> {
    let Named { name, bytes } = named;
    let catalogue = Catalogue::read(bytes).expect("an accepted catalogue");
    let concepts = catalogue.concepts.len();
    let within_limit = |call, milliseconds: f64| match milliseconds <= budgets.limit {
        true => Ok(()),
        false => Err(Slow {
            call,
            concepts,
            milliseconds,
        }),
    };
    let (first, mut site) = timed(|| classify::site(bytes));
    within_limit("classify", first)?;
    let classify = classify::time(name, &mut site, sides, budgets.classify);
    let change = edits::time_one_axiom(name, &catalogue, &mut site, budgets.change);
    within_limit("change", change.withdraw.most.max(change.add.most))?;
    let sizes = site.catalogue().sizes();
    Ok(Costs {
        concepts,
        lent: sizes.store + sizes.work + sizes.list,
        classify,
        change,
        reading: reading::time(bytes, site.store(), budgets.reading),
    })
}

/// A family's costs, by size.
pub struct Measured {
    pub family: &'static Family,
    pub costs: Vec<Costs>,
    /// Why there is nothing of larger sizes.
    pub slow: Option<Slow>,
}

impl Measured {
    /// Measures a family at its sizes, rising, until a call is slow; says what is next.
    pub fn measure(family: &'static Family, budgets: Budgets, said: &dyn Fn(&str)) -> Measured {
        let mut measured = Measured {
            family,
            costs: vec![],
            slow: None,
        };
        for &size in family.sizes {
            let named = family.named(size);
            said(&named.name);
            match costs(&named, &measured.sides(size, budgets.limit), budgets) {
                Ok(costs) => measured.costs.push(costs),
                Err(slow) => {
                    measured.slow = Some(slow);
                    break;
                }
            }
        }
        measured
    }

    /// The sides that classify is timed by at the next size: the library, and those of
    /// plain Rust that take no longer than the limit there, if they grow with the
    /// fourth power of the number of concepts.
    pub fn sides(&self, size: usize, limit: f64) -> Vec<Side> {
        let fast = |&side: &Side| match (side, self.costs.last()) {
            (Side::Library, _) | (_, None) => true,
            (
                _,
                Some(Costs {
                    concepts, classify, ..
                }),
            ) => {
                let growth = (size as f64 / *concepts as f64).powi(4);
                classify
                    .of(side)
                    .is_some_and(|sample| sample.most * growth <= limit)
            }
        };
        classify::ALL.into_iter().filter(fast).collect()
    }

    /// The costs at a size, if it was measured.
    pub fn at(&self, concepts: usize) -> Option<&Costs> {
        self.costs.iter().find(|costs| costs.concepts == concepts)
    }
}

/// All of it.
pub struct Results {
    pub machine: Vec<String>,
    pub families: Vec<Measured>,
    /// Classify of the files in `data`.
    pub files: Vec<(&'static str, classify::Cost)>,
    /// Whole processes, by file.
    pub whole: Vec<Whole>,
    pub peaks: Vec<Peaks>,
    /// The stack of each call.
    pub stacks: Vec<(String, usize)>,
}

impl Results {
    /// Measures; says what is next.
    pub fn measure(budgets: Budgets, said: &dyn Fn(&str)) -> Results {
        let measured = |family| Measured::measure(family, budgets, said);
        let families: Vec<Measured> = FAMILIES.iter().map(measured).collect();
        let file = |name: &'static str| {
            said(name);
            let mut site = classify::site(&catalogues::file(name).bytes);
            let cost = classify::time(name, &mut site, &classify::ALL, budgets.classify);
            (name, cost)
        };
        let built = Built::here();
        let whole = |name: &'static str| {
            said(&format!("whole processes, {name}"));
            whole::time(&built, name, budgets.processes)
        };
        let files = catalogues::FILES.map(file).into_iter().collect();
        let whole = whole::FILES.map(whole).into_iter().collect();
        said("memory and stack");
        Results {
            machine: machine::description(),
            files,
            whole,
            peaks: memory::peaks(&families),
            stacks: memory::stacks(&families),
            families,
        }
    }
}
