//! Random catalogues: the tree says what the lookups say.

use std::collections::{HashMap, HashSet};

use girvotal::{Catalogue, Concept, Record};
use girvotal_command::state::State;
use girvotal_command::text::{Compiled, Names};
use reference::random::Random;

use crate::picture::{Place, classified, places, state};
use crate::sources;

/// How many catalogues are drawn.
const SEEDS: u64 = 1_500;

#[test]
fn lookups() {
    let mut met = [0; 4];
    for seed in 0..SEEDS {
        let random = &mut Random::new(seed);
        let state = match seed % 3 {
            0 => of_catalogue(random, |_, catalogue| Names::numbered(catalogue)),
            1 => of_catalogue(random, sources::names),
            _ => state(&of_kinds(random)),
        };
        let places = places(&state);
        check(&state, &places, seed);
        met[0] += places.iter().filter(|place| !place.first).count();
        met[1] += places.iter().filter(|place| place.names.len() > 1).count();
        met[2] += places.iter().filter(|place| !place.used).count();
        met[3] += places.iter().filter(|place| place.depth > 1).count();
    }
    assert!(met.iter().all(|&count| count >= 500), "{met:?}");
}

/// The state of a random catalogue.
fn of_catalogue(random: &mut Random, names: impl Fn(&mut Random, Catalogue<'_>) -> Names) -> State {
    let catalogue = sources::random(random);
    let names = names(random, Catalogue::new(&catalogue).expect("accepted"));
    classified(Compiled { catalogue, names })
}

/// A text of axioms between kinds, of which few lead back.
fn of_kinds(random: &mut Random) -> String {
    let n = 2 + random.below(30);
    let mut text: String = (0..n).map(|kind| format!("kind k{kind}\n")).collect();
    for _ in 0..random.below(3 * n) {
        let (one, other) = (random.below(n), random.below(n));
        let back = random.below(20) == 0;
        let (below, above) = if (one < other) != back {
            (one, other)
        } else {
            (other, one)
        };
        text += &format!("k{below} < k{above}\n");
    }
    text
}

/// The ids of the entries directly above each.
type Edges<'a> = HashMap<&'a str, Vec<&'a str>>;

/// The ids of all entries above one.
fn above<'a>(id: &str, edges: &Edges<'a>) -> HashSet<&'a str> {
    let mut above = HashSet::new();
    let mut left = edges[id].clone();
    while let Some(id) = left.pop() {
        if above.insert(id) {
            left.extend(&edges[id]);
        }
    }
    above
}

fn check(state: &State, places: &[Place], seed: u64) {
    let mut edges: Edges<'_> = HashMap::new();
    let mut entries: HashMap<&str, &Place> = HashMap::new();
    for place in places {
        let direct = edges.entry(&place.id).or_default();
        direct.extend(place.above.as_deref());
        for name in place.names.iter().filter(|_| place.first) {
            assert!(
                entries.insert(name, place).is_none(),
                "{seed}: {name} twice"
            );
        }
    }
    let entry = |kind: Concept| entries[state.name(kind)];
    let kinds = state.kinds();
    assert_eq!(entries.len(), kinds.len(), "{seed}: each kind once");
    let used = used(state.site.catalogue());
    for &kind in &kinds {
        let place = entry(kind);
        assert_eq!(place.used, used.contains(&kind), "{seed}");
        let higher = above(&place.id, &edges);
        let mut below = 0;
        for &other in &kinds {
            let same = entry(other).id == place.id;
            let under = same || higher.contains(entry(other).id.as_str());
            let looked = |one, other| state.site.lookup(one, other).expect("they occur");
            assert_eq!(looked(kind, other), under, "{seed}: {kind:?} {other:?}");
            below += usize::from(looked(other, kind) && !same);
        }
        assert_eq!(place.below, below, "{seed}: {kind:?}");
    }
    not_redundant(&edges, seed);
    in_order(places, seed);
}

/// No entry stands under one that is above another that it stands under, or twice under one.
fn not_redundant(edges: &Edges<'_>, seed: u64) {
    for direct in edges.values() {
        for (i, one) in direct.iter().enumerate() {
            let others = direct.iter().enumerate().filter(|&(j, _)| j != i);
            for (_, other) in others {
                let farther = above(other, edges);
                assert!(one != other && !farther.contains(one), "{seed}: {one}");
            }
        }
    }
}

/// Names rise in an entry, and among the entries under one; those in no axiom come last.
fn in_order(places: &[Place], seed: u64) {
    let mut last: HashMap<Option<&str>, (bool, &str)> = HashMap::new();
    for place in places {
        assert!(place.names.is_sorted_by(|one, next| one < next), "{seed}");
        let rank = (!place.used, place.names[0].as_str());
        let before = last.insert(place.above.as_deref(), rank);
        assert!(
            before.is_none_or(|before| before < rank),
            "{seed}: {rank:?}"
        );
    }
}

/// The concepts in axioms, with their parts.
fn used(catalogue: Catalogue<'_>) -> HashSet<Concept> {
    let mut used = HashSet::new();
    let mut left: Vec<Concept> = catalogue.axioms().flat_map(|a| [a.left, a.right]).collect();
    while let Some(concept) = left.pop() {
        if used.insert(concept) {
            match catalogue.record(concept).expect("a record") {
                Record::Atomic | Record::Top => {}
                Record::Conjunction(one, other) => left.extend([one, other]),
                Record::Existential(_, part) => left.push(part),
            }
        }
    }
    used
}
