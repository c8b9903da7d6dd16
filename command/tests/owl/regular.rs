//! Role axioms as OWL 2 DL allows them.

use reference::catalogue::Catalogue;
use reference::random::Random;

/// Whether the role axioms are regular: the roles can be ranked so that an inclusion never leads
/// down, and in a composition r s < t the ranks of r and s are below that of t, but for t t < t,
/// and for r or s being t itself.
pub fn is_regular(catalogue: &Catalogue) -> bool {
    let roles = catalogue.roles;
    let mut lower: Vec<(usize, usize)> = vec![];
    for &(first, second, result) in &catalogue.compositions {
        match (first == result, second == result) {
            (true, true) => {}
            (true, false) => lower.push((second, result)),
            (false, true) => lower.push((first, result)),
            (false, false) => lower.extend([(first, result), (second, result)]),
        }
    }
    // Which role is at most as high as which.
    let mut within = vec![vec![false; roles]; roles];
    for &(r, s) in catalogue.inclusions.iter().chain(&lower) {
        within[r][s] = true;
    }
    for middle in 0..roles {
        for r in 0..roles {
            for s in 0..roles {
                within[r][s] |= within[r][middle] && within[middle][s];
            }
        }
    }
    lower.iter().all(|&(r, s)| r != s && !within[s][r])
}

/// Gives a catalogue other role axioms, on up to six roles, all regular: ranks rise with numbers.
pub fn with_regular_roles(random: &mut Random, catalogue: &mut Catalogue) {
    use reference::catalogue::Concept;
    let roles = 2 + random.below(5);
    for concept in &mut catalogue.concepts {
        if let Concept::Existential(role, _) = concept {
            *role = random.below(roles);
        }
    }
    catalogue.roles = roles;
    catalogue.inclusions.clear();
    catalogue.compositions.clear();
    for _ in 0..random.below(3) {
        let s = 1 + random.below(roles - 1);
        catalogue.inclusions.push((random.below(s), s));
    }
    for _ in 0..1 + random.below(5) {
        let t = 1 + random.below(roles - 1);
        let (r, s) = (random.below(t), random.below(t));
        catalogue.compositions.push(match random.below(4) {
            0 => (t, t, t),
            1 => (t, s, t),
            2 => (r, t, t),
            _ => (r, s, t),
        });
    }
}

#[test]
fn regularity() {
    let with = |inclusions: &[(usize, usize)], compositions: &[(usize, usize, usize)]| Catalogue {
        concepts: vec![],
        roles: 4,
        inclusions: inclusions.to_vec(),
        compositions: compositions.to_vec(),
        axioms: vec![],
    };
    for (inclusions, compositions, regular) in [
        (&[][..], &[][..], true),
        (&[(0, 1), (1, 0), (2, 2)], &[], true),
        (&[], &[(0, 1, 2)], true),
        (&[], &[(2, 2, 2), (2, 1, 2), (0, 2, 2)], true),
        (&[(2, 0)], &[(0, 1, 2)], false),
        (&[(0, 2)], &[(0, 1, 2)], true),
        (&[(2, 3), (3, 1)], &[(0, 1, 2)], false),
        (&[], &[(0, 1, 2), (2, 3, 0)], false),
        (&[(2, 3)], &[(0, 1, 2), (3, 1, 0)], false),
        (&[(0, 1), (1, 0)], &[(0, 0, 1)], false),
        (&[(0, 1), (1, 0)], &[(0, 0, 0)], true),
        (&[], &[(1, 0, 1), (0, 1, 0)], false),
        (&[], &[(0, 0, 1)], true),
    ] {
        let catalogue = with(inclusions, compositions);
        assert_eq!(
            is_regular(&catalogue),
            regular,
            "{inclusions:?} {compositions:?}"
        );
    }
    for seed in 0..200 {
        let random = &mut Random::new(seed);
        let mut catalogue = random.catalogue(20);
        with_regular_roles(random, &mut catalogue);
        assert!(is_regular(&catalogue), "seed {seed}");
    }
}
