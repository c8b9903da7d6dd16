//! A third opinion: Konclude on the same ontologies, where it is installed (Debian's `konclude`).

use crate::hierarchy::Hierarchy;
use crate::reader::Ontology;
use crate::regular::{is_regular, with_regular_roles};
use crate::support::{Folder, say};
use crate::{read, sources};
use girvotal::{Concept, Record, Row, Site};
use girvotal_command::text::{Compiled, Names, compile, owl};
use reference::calls::classified;
use reference::catalogue::{self, Catalogue};
use reference::random::Random;
use reference::store::Layout;
use std::cell::OnceCell;
use std::fs;
use std::path::Path;
use std::process::{Command, Stdio};
use std::time::{Duration, Instant};

/// How long Konclude may take for an ontology: with one thread it hangs on W1, with two it has not
/// yet.
const LIMIT: Duration = Duration::from_secs(60);

/// How many of its runs may differ from the library. On large catalogues they differ from each
/// other, by a few pairs; most agree.
const RUNS: usize = 12;

/// How often it may crash, which irregular role axioms make it do: on `small-1.bin` in two runs of
/// three, on some random catalogues in every run.
const CRASHES: usize = 60;
const CRASHES_AT_RANDOM: usize = 3;

/// The one file of data/ of which it misses pairs.
const MISSED: &str = "composed-0.bin";

/// So many random catalogues of each family.
const SEEDS: u64 = 100;

/// Whether it is on the path. It is not run for that: asked for its help or version, it may hang.
fn installed() -> bool {
    let path = std::env::var_os("PATH").unwrap_or_default();
    std::env::split_paths(&path).any(|folder| folder.join("Konclude").is_file())
}

/// One run of Konclude: what it says of the ontology in a folder; nothing where it crashes or does
/// not end.
fn run(folder: &Path, ontology: &Ontology) -> Option<Hierarchy> {
    // That of a run before.
    let _ = fs::remove_file(folder.join("out.owl"));
    let mut child = Command::new("Konclude")
        .args(["classification", "-w", "2", "-i", "in.owl", "-o", "out.owl"])
        .current_dir(folder)
        .stdin(Stdio::null())
        .stdout(Stdio::null())
        .stderr(Stdio::null())
        .spawn()
        .expect("Konclude");
    let begin = Instant::now();
    while begin.elapsed() < LIMIT {
        if let Some(status) = child.try_wait().expect("its status") {
            let document = fs::read_to_string(folder.join("out.owl")).ok();
            let document = document.filter(|_| status.success())?;
            return Some(Hierarchy::read(&document, ontology));
        }
        std::thread::sleep(Duration::from_millis(2));
    }
    child.kill().expect("its end");
    child.wait().expect("its end");
    None
}

/// A pair of concepts that occur.
struct Pair {
    below: usize,
    above: usize,
    /// Whether both are kinds.
    kinds: bool,
}

/// All pairs of concepts that occur: those that the library says, and those that it denies.
fn pairs(site: &Site) -> (Vec<Pair>, Vec<Pair>) {
    let concepts = (0..).map(Concept).zip(site.catalogue().records());
    let rows =
        concepts.filter_map(|(concept, record)| Some((concept, record, site.row(concept).ok()?)));
    let rows: Vec<(Concept, Record, Row<'_>)> = rows.collect();
    let (mut said, mut denied) = (vec![], vec![]);
    for &(below, record, row) in &rows {
        for &(above, record_above, _) in &rows {
            let pair = Pair {
                below: usize::from(below.0),
                above: usize::from(above.0),
                kinds: record == Record::Atomic && record_above == Record::Atomic,
            };
            match row.contains(above) {
                true => said.push(pair),
                false => denied.push(pair),
            }
        }
    }
    (said, denied)
}

/// What the reference says of a catalogue.
struct Reference {
    catalogue: Catalogue,
    store: Vec<u8>,
}

impl Reference {
    fn of(bytes: &[u8]) -> Reference {
        let catalogue = Catalogue::read(bytes).expect("an accepted catalogue");
        let (_, store) = classified(bytes).expect("an accepted catalogue");
        Reference { catalogue, store }
    }

    fn under(&self, below: usize, above: usize) -> bool {
        Layout::new(&self.catalogue).has_pair(&self.store, below, above)
    }

    /// Whether everything lies under a concept.
    fn universal(&self, above: usize) -> bool {
        let mut concepts = self.catalogue.concepts.iter().enumerate();
        concepts.any(|(top, concept)| *concept == catalogue::Concept::Top && self.under(top, above))
    }
}

/// What was compared.
#[derive(Default)]
struct Tally {
    catalogues: usize,
    said: usize,
    denied: usize,
    of_kinds: usize,
    /// Runs that crashed or differed, after which it was asked again.
    again: usize,
    /// Pairs that Konclude misses, where the role axioms are regular: the upper is universal.
    universal: usize,
    /// Catalogues with irregular role axioms, those of them that Konclude says nothing of, and the
    /// pairs that it misses of the others.
    irregular: usize,
    unanswered: usize,
    missed: usize,
    missed_of_kinds: usize,
}

impl Tally {
    fn say(&self, what: &str) {
        say(&format!(
            "konclude, {what}: {} catalogues, {} pairs ({} of kinds), {} yes; asked again {} times; \
             all the same but {} pairs missed whose upper holds of everything, and {} ({} of kinds) \
             of the {} catalogues with irregular role axioms; it says nothing of {} more of these",
            self.catalogues,
            self.said + self.denied,
            self.of_kinds,
            self.said,
            self.again,
            self.universal,
            self.missed,
            self.missed_of_kinds,
            self.irregular,
            self.unanswered,
        ));
    }

    /// Compares all pairs of concepts that occur, of a catalogue of data/, or of a random one. One
    /// run of Konclude says no yes that the library denies, and all that the library says; but it
    /// may miss pairs that the reference says too: any of `MISSED` and of random catalogues with
    /// irregular role axioms, and of other random ones those whose upper holds of everything.
    fn compare(&mut self, what: &str, data: bool, folder: &Path, compiled: Compiled) {
        let Compiled { catalogue, names } = compiled;
        let text = owl(read(&catalogue), &names);
        let ontology = Ontology::read(&text);
        fs::write(folder.join("in.owl"), text).expect("an ontology");
        let regular = is_regular(&ontology.catalogue());
        let reference = OnceCell::new();
        let reference = || reference.get_or_init(|| Reference::of(&catalogue));
        let may_miss = |pair: &Pair| match (data, regular) {
            (true, _) if what != MISSED => false,
            (false, true) => reference().universal(pair.above),
            _ => reference().under(pair.below, pair.above),
        };
        let site = Site::classify(catalogue.clone()).expect("an accepted catalogue");
        let (said, denied) = pairs(&site);
        let (mut crashes, mut differing) = (0, vec![]);
        let missed = loop {
            if !data && !regular && crashes == CRASHES_AT_RANDOM {
                self.unanswered += 1;
                return;
            }
            assert!(
                crashes < CRASHES && differing.len() < RUNS,
                "{what}: {crashes} crashes, and otherwise {differing:?}"
            );
            self.again += usize::from(crashes + differing.len() > 0);
            let Some(hierarchy) = run(folder, &ontology) else {
                crashes += 1;
                continue;
            };
            let under = |pair: &&Pair| hierarchy.under(pair.below, pair.above);
            let false_yes = denied.iter().find(under);
            assert!(
                regular || false_yes.is_none(),
                "{what}: a yes that is denied"
            );
            let missed: Vec<&Pair> = said.iter().filter(|pair| !under(pair)).collect();
            let wrong = missed.iter().find(|pair| !may_miss(pair)).copied();
            match false_yes.or(wrong) {
                Some(Pair { below, above, .. }) => differing.push((*below, *above)),
                None => break missed,
            }
        };
        let missed_of_kinds = missed.iter().filter(|pair| pair.kinds).count();
        if regular {
            self.universal += missed.len();
        } else {
            self.irregular += 1;
            self.missed += missed.len();
            self.missed_of_kinds += missed_of_kinds;
        }
        self.catalogues += 1;
        self.said += said.len();
        self.denied += denied.len();
        let all = said.iter().chain(&denied);
        self.of_kinds += all.filter(|pair| pair.kinds).count();
    }
}

/// The catalogues and texts of data/, and the built-in examples.
fn files() -> Vec<(String, Compiled)> {
    let mut all: Vec<(String, Compiled)> = sources::catalogues()
        .into_iter()
        .map(|(name, catalogue)| {
            let names = Names::numbered(read(&catalogue));
            (name, Compiled { catalogue, names })
        })
        .collect();
    for name in sources::texts() {
        let compiled = compile(&sources::file(&name)).expect("a right text");
        all.push((name, compiled));
    }
    all
}

/// Random catalogues: small ones, ones of many roles or doubles, and ones of regular role axioms.
fn random(seed: u64) -> [Compiled; 3] {
    let random = &mut Random::new(seed);
    let small = random.catalogue(20).bytes();
    let wild = sources::random(random);
    let mut regular = random.catalogue(40);
    with_regular_roles(random, &mut regular);
    [small, wild, regular.bytes()].map(|catalogue| {
        let names = sources::names(random, read(&catalogue));
        Compiled { catalogue, names }
    })
}

#[test]
fn third_opinion() {
    if !installed() {
        say("konclude: NOT INSTALLED, nothing compared with it (Debian has it: konclude)");
        return;
    }
    let folder = Folder::new();
    let mut tally = Tally::default();
    let files = files();
    assert!(files.len() > 20 && files.iter().any(|(name, _)| name == MISSED));
    for (name, compiled) in files {
        tally.compare(&name, true, &folder.path, compiled);
    }
    tally.say("data and examples");
    assert!(tally.denied > 100_000 && tally.said > 100_000);
    let mut tally = Tally::default();
    for seed in 0..SEEDS {
        for (family, compiled) in random(seed).into_iter().enumerate() {
            let what = format!("seed {seed}, {family}");
            tally.compare(&what, false, &folder.path, compiled);
        }
    }
    tally.say(&format!("seeds 0 to {}", SEEDS - 1));
    assert_eq!(tally.catalogues + tally.unanswered, 3 * SEEDS as usize);
    assert!(tally.denied > 10_000 && tally.said > 10_000);
    let regular = tally.catalogues - tally.irregular;
    assert!(regular >= SEEDS as usize && tally.irregular > 0);
}
