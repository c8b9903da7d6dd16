//! Wishes: against a catalogue that says them, for every concept of every catalogue of `data/`.

use std::path::Path;

use girvotal::{Builder, Catalogue, Concept, Question, Record, Role, Site, query};

/// The catalogues of `data/`.
fn catalogues() -> Vec<(String, Vec<u8>)> {
    let folder = Path::new(env!("CARGO_MANIFEST_DIR")).join("../data");
    let entries = std::fs::read_dir(folder).expect("the folder data");
    let paths = entries.map(|entry| entry.expect("an entry").path());
    let binary = paths.filter(|path| path.extension() == Some("bin".as_ref()));
    let read = |path: std::path::PathBuf| {
        let bytes = std::fs::read(&path).expect("a catalogue");
        (path.display().to_string(), bytes)
    };
    binary.map(read).collect()
}

/// The wish that a concept of the catalogue is has the answers of a lookup of that concept.
#[test]
fn concepts_that_occur() {
    for (name, bytes) in catalogues() {
        let catalogue = Catalogue::new(&bytes).expect("accepted");
        if catalogue.concepts() > 40 {
            continue;
        }
        let site = Site::classify(bytes.clone()).expect("accepted");
        let all: Vec<Concept> = (0..).map(Concept).take(catalogue.concepts()).collect();
        let atomic = |c: &&Concept| catalogue.record(**c) == Some(Record::Atomic);
        for &wish in &all {
            let Ok(row) = site.row(wish) else {
                continue;
            };
            let met = query(&catalogue, wish).expect("accepted");
            let under = |c: &Concept| site.lookup(*c, wish) == Ok(true);
            let kinds: Vec<Concept> = all.iter().filter(atomic).copied().collect();
            let below: Vec<Concept> = kinds.iter().copied().filter(under).collect();
            assert_eq!(met.kinds, below, "{name}: {wish:?}");
            let above = |c: &&Concept| row.contains(**c) && !under(c);
            let above: Vec<Concept> = kinds.iter().filter(above).copied().collect();
            let direct = |c: &&Concept| {
                let lower = |d: &Concept| site.row(*d).expect("a kind").contains(**c);
                let strictly = |d: &Concept| !site.row(**c).expect("a kind").contains(*d);
                !above.iter().any(|d| lower(d) && strictly(d))
            };
            let direct: Vec<Concept> = above.iter().filter(direct).copied().collect();
            assert_eq!(met.above, direct, "{name}: {wish:?}");
            let equal = below.iter().filter(|c| row.contains(**c)).copied();
            assert_eq!(met.equal, equal.collect::<Vec<_>>(), "{name}: {wish:?}");
        }
    }
}

/// A wish that is no record, asked of the axioms in force; the site stays as it is.
#[test]
fn a_new_wish() {
    let w1 = Path::new(env!("CARGO_MANIFEST_DIR")).join("../data/w1.bin");
    let mut site = Site::classify(std::fs::read(w1).expect("W1")).expect("accepted");
    let [corner, pillar, electricity, powered] = [0, 1, 2, 3].map(Concept);
    let (has, supplies) = (Role(0), Role(1));
    let before = site.clone();
    let wish = |builder: &mut Builder| {
        let supplies_it = builder.existential(supplies, electricity);
        builder.existential(has, supplies_it)
    };
    let met = site.query(wish).expect("accepted");
    assert_eq!((met.kinds, met.equal), (vec![corner], vec![]));
    assert_eq!(met.above, [powered]);
    assert_eq!(site.store(), before.store());
    let axiom = site.catalogue().axioms().find(|axiom| axiom.left == pillar);
    site.change(&[axiom.expect("an axiom")], &[]).expect("done");
    assert_eq!(site.query(wish).expect("accepted").kinds, []);
}

/// What is refused: a concept that is not there, and a catalogue without room.
#[test]
fn refused() {
    let mut builder = Builder::new();
    (0..512).for_each(|_| {
        builder.kind();
    });
    let full = builder.build().expect("accepted");
    let site = Site::classify(full).expect("accepted");
    let refusal = site.query(|_| Concept(0)).expect_err("no room");
    assert_eq!(refusal.question, Question::Counts);
    let mut builder = Builder::new();
    builder.kind();
    let site = Site::classify(builder.build().expect("accepted")).expect("accepted");
    let refusal = site.query(|_| Concept(9)).expect_err("not there");
    assert_eq!(refusal.question, Question::Sides);
}
