//! Sites: the same calls on buffers of their own.

mod support;

use girvotal::{Axiom, Builder, Catalogue, Concept, Counts, Question, Refusal, Site};
use support::{file, files};

/// In W1: a pillar supplies electricity.
const SUPPLY: Axiom = Axiom {
    left: Concept(1),
    right: Concept(5),
};

fn by<T>(question: Question) -> Result<T, Refusal> {
    let record = 0;
    Err(Refusal { question, record })
}

fn classified(catalogue: &[u8]) -> Site {
    Site::classify(catalogue.to_vec()).expect("an accepted catalogue")
}

/// Classify, look up, withdraw, look up again, add back.
#[test]
fn w1_and_an_axiom_withdrawn() {
    let w1 = file("w1");
    let (corner, powered) = (Concept(0), Concept(3));
    let mut site = classified(&w1);
    let fresh = site.store().to_vec();
    assert_eq!(site.lookup(corner, powered), Ok(true));
    assert_eq!(site.lookup(powered, corner), Ok(false));
    let listed = site.list(powered).expect("accepted");
    assert_eq!(listed, [corner, powered]);
    assert_eq!(site.row(corner).expect("accepted").bytes(), [89]);

    let changed = site.change(&[SUPPLY], &[]).expect("accepted");
    let counts = (changed.removed, changed.returned, changed.gained);
    assert_eq!(counts, (10, 0, 0));
    assert!(changed.touched.iter().eq([0, 1, 4, 5].map(Concept)));
    assert_eq!(site.lookup(corner, powered), Ok(false));
    assert_eq!(site.lookup(corner, SUPPLY.right), by(Question::Occurs));
    assert_eq!(site.list(SUPPLY.right), by(Question::Occurs));
    assert_eq!(site.row(SUPPLY.right), by(Question::Occurs));
    assert_eq!(
        site.catalogue().bytes(),
        w1,
        "the one that it was made with"
    );
    let written = site.write().expect("accepted");
    let written = Catalogue::new(&written).expect("an accepted catalogue");
    let rest = site.catalogue().axioms().filter(|axiom| *axiom != SUPPLY);
    assert!(written.axioms().eq(rest));

    let changed = site.change(&[], &[SUPPLY]).expect("accepted");
    assert_eq!((changed.removed, changed.gained), (0, 10));
    assert!(site.store() == fresh);
    assert_eq!(site.write(), Ok(w1));
}

#[test]
fn as_on_lent_buffers() {
    for (name, bytes) in files() {
        let (mut site, derived) = Site::classified(bytes.clone()).expect("an accepted catalogue");
        let catalogue = Catalogue::new(&bytes).expect("an accepted catalogue");
        let sizes = catalogue.sizes();
        let buffer = |length| vec![0; length];
        let (mut store, mut work) = (buffer(sizes.store), buffer(sizes.work));
        let counts = girvotal::classify(&catalogue, &mut store, &mut work);
        assert!(site.store() == store, "{name}");
        assert_eq!(Ok(derived), counts, "{name}");
        assert_eq!(site.catalogue(), catalogue, "{name}");
        assert_eq!(site.reclassify(), counts, "{name}");
        assert_eq!(site.write(), Ok(bytes.clone()), "{name}");
        let mut list = buffer(sizes.list);
        for concept in (0..=catalogue.concepts() as u16).step_by(7).map(Concept) {
            let other = girvotal::list(&catalogue, concept, &store, &mut list);
            let other = other.map(|listed| listed.iter().collect());
            assert_eq!(site.list(concept), other, "{name}: {concept:?}");
            let other = girvotal::row(&catalogue, concept, &store);
            assert_eq!(site.row(concept), other, "{name}: {concept:?}");
            let other = girvotal::lookup(&catalogue, Concept(0), concept, &store);
            assert_eq!(site.lookup(Concept(0), concept), other, "{name}");
        }
        let axioms: Vec<Axiom> = catalogue.axioms().take(1).collect();
        let mut list = buffer(sizes.list);
        let other = girvotal::change(&catalogue, &axioms, &[], &mut store, &mut work, &mut list);
        assert_eq!(site.change(&axioms, &[]), other, "{name}");
        assert!(site.store() == store, "{name}");
    }
}

/// A rewritten catalogue is the one with the axioms in force, with the sizes that it asks for.
#[test]
fn rewritten_catalogues() {
    for (name, bytes) in files() {
        let mut site = classified(&bytes);
        let axioms: Vec<Axiom> = site.catalogue().axioms().take(3).collect();
        site.change(&axioms, &[]).expect("accepted");
        let (store, written) = (site.store().to_vec(), site.write().expect("accepted"));
        site.rewrite().expect("accepted");
        assert!(site.store() == store, "{name}");
        let catalogue = Catalogue::new(&written).expect("an accepted catalogue");
        assert_eq!(site.catalogue(), catalogue, "{name}");
        assert_eq!(site.catalogue().sizes(), catalogue.sizes(), "{name}");
        site.reclassify().expect("accepted");
        assert!(site.store() == store, "{name}");
    }
}

/// A store kept from before is taken as it is, with any bytes past its used part.
#[test]
fn kept_stores() {
    let mut site = classified(&file("w1"));
    site.change(&[SUPPLY], &[]).expect("accepted");
    let mut store = site.store().to_vec();
    store.push(255);
    let kept = Site::of(file("w1"), store.clone()).expect("accepted");
    assert_eq!(kept.store(), store);
    assert_eq!(kept.write(), site.write());
    assert_eq!(kept.lookup(Concept(0), Concept(3)), Ok(false));
}

#[test]
fn stores_that_are_refused() {
    let w1 = file("w1");
    let store = classified(&w1).store().to_vec();
    let of = |catalogue: &[u8], store: &[u8]| {
        let site = Site::of(catalogue.to_vec(), store.to_vec());
        site.map(|_| ()).map_err(|refusal| refusal.question)
    };
    assert_eq!(of(&w1, &store), Ok(()));
    assert_eq!(of(&w1[..79], &store), Err(Question::Total));
    assert_eq!(of(&w1, &store[..34]), Err(Question::Store));
    let mut spare = store.clone();
    spare[34] |= 128;
    assert_eq!(of(&w1, &spare), Err(Question::Spare));

    let mut builder = Builder::new();
    for _ in 0..72 {
        builder.kind();
    }
    let kinds = builder.build().expect("an accepted catalogue");
    let mut limit = vec![0; 72 * 9 * 2];
    limit[..512].fill(255); // 4,096 axioms
    assert_eq!(of(&kinds, &limit), Ok(()));
    limit[512] = 1;
    assert_eq!(of(&kinds, &limit), Err(Question::Limit));
    assert!(Site::classify(vec![]).is_err_and(|r| r.question == Question::Header));
}

#[test]
fn refused_changes_keep_the_store() {
    let mut site = classified(&file("w1"));
    let store = site.store().to_vec();
    let own = [SUPPLY];
    let other = [Axiom {
        left: SUPPLY.right,
        right: SUPPLY.left,
    }];
    assert_eq!(site.change(&[SUPPLY; 65], &[]), by(Question::Whole));
    assert_eq!(site.change(&own, &own), by(Question::Twice));
    assert_eq!(site.change(&other, &[]), by(Question::NotInForce));
    assert_eq!(site.change(&[], &own), by(Question::InForce));
    assert!(site.store() == store);
}

/// Reclassified, a site is as it was made, whatever was changed.
#[test]
fn starting_over() {
    let mut site = classified(&file("w1"));
    let (fresh, mut copy) = (site.store().to_vec(), site.clone());
    copy.change(&[SUPPLY], &[]).expect("accepted");
    assert!(copy.store() != fresh && site.store() == fresh);
    let counts = Counts {
        pairs: 14,
        links: 7,
    };
    assert_eq!(copy.reclassify(), Ok(counts));
    assert!(copy.store() == fresh);
    assert!(
        site.change(&[], &[])
            .is_ok_and(|changed| changed.touched.is_empty())
    );
}

/// Sites may be read by many threads at once.
#[test]
fn threads() {
    let site = &classified(&file("bookings-2"));
    let row = |concept| site.row(Concept(concept)).map(|row| row.iter().count());
    let alone: Vec<_> = (0..211).map(row).collect();
    std::thread::scope(|scope| {
        let all = (0..4).map(|_| scope.spawn(|| (0..211).map(row).collect::<Vec<_>>()));
        for thread in all.collect::<Vec<_>>() {
            assert_eq!(thread.join().expect("done"), alone);
        }
    });
}
