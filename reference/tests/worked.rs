//! The worked examples W1 to W10 of document 01, those of request Four, and
//! others beside them.

use reference::calls::{self, Changed, Counts, Sizes};
use reference::catalogue::{Axiom, Catalogue, Concept, Refusal, list};
use reference::{examples, listing};

/// A catalogue, and buffers for calls on it.
struct Buffers {
    catalogue: Vec<u8>,
    store: Vec<u8>,
    work: Vec<u8>,
    list: Vec<u8>,
}

const FILL: u8 = 0xa5;

impl Buffers {
    /// Classified, on buffers of any content, with `spare` bytes past each
    /// used part.
    fn new(catalogue: &Catalogue, spare: usize) -> (Buffers, Counts) {
        let n = catalogue.concepts.len();
        let rows = n * n.div_ceil(8);
        let mut lent = Buffers {
            catalogue: catalogue.bytes(),
            store: vec![FILL; rows * (catalogue.roles + 2) + spare],
            work: vec![FILL; rows * (catalogue.roles + 1) + spare],
            list: vec![FILL; 2 * n + spare],
        };
        let counts = calls::classify(&lent.catalogue, &mut lent.store, &mut lent.work);
        (lent, counts.expect("an accepted classify"))
    }

    fn lookup(&self, c: usize, d: usize) -> Result<bool, Refusal> {
        calls::lookup(&self.catalogue, c, d, &self.store)
    }

    fn change_by(&mut self, withdrawn: &[u8], added: &[u8]) -> Result<Changed, Refusal> {
        let (store, work, list) = (&mut self.store, &mut self.work, &mut self.list);
        calls::change(&self.catalogue, withdrawn, added, store, work, list)
    }

    fn change(&mut self, withdrawn: &[Axiom], added: &[Axiom]) -> Result<Changed, Refusal> {
        self.change_by(&list(withdrawn), &list(added))
    }

    fn add(&mut self, left: usize, right: usize) -> Result<Changed, Refusal> {
        self.change(&[], &[(left, right)])
    }

    fn withdraw(&mut self, left: usize, right: usize) -> Result<Changed, Refusal> {
        self.change(&[(left, right)], &[])
    }

    /// A change that is accepted: removed, returned and gained, and the touched.
    fn changed(&mut self, withdrawn: &[Axiom], added: &[Axiom]) -> ([usize; 3], Vec<u16>) {
        let counts = self.change(withdrawn, added).expect("an accepted change");
        let listed = self.list.chunks(2).take(counts.touched);
        let touched = listed.map(|pair| u16::from_le_bytes([pair[0], pair[1]]));
        let counted = [counts.removed, counts.returned, counts.gained];
        (counted, touched.collect())
    }

    /// Bits set in the store from this byte up to that one.
    fn marks(&self, from: usize, to: usize) -> u32 {
        self.store[from..to]
            .iter()
            .map(|byte| byte.count_ones())
            .sum()
    }
}

fn refusal(number: usize) -> Refusal {
    Refusal { number, record: 0 }
}

#[test]
fn w1_classify() {
    let catalogue = examples::w1();
    let bytes = catalogue.bytes();
    assert_eq!(bytes.len(), 80);
    assert_eq!(bytes[12..20], [20, 0, 62, 0, 62, 0, 68, 0]);
    assert_eq!(Catalogue::read(&bytes), Ok(catalogue.clone()));
    let (lent, counts) = Buffers::new(&catalogue, 0);
    assert_eq!(lent.store.len(), 35);
    assert_eq!(
        counts,
        Counts {
            pairs: 14,
            links: 7
        }
    );
    assert_eq!(lent.store[7..14], [89, 34, 4, 8, 88, 32, 72]);
    assert!(lent.work.iter().all(|&byte| byte == 0));
}

#[test]
fn w2_lookup() {
    let (lent, _) = Buffers::new(&examples::w1(), 0);
    assert_eq!(lent.lookup(0, 3), Ok(true));
    assert_eq!(lent.lookup(3, 0), Ok(false));
}

#[test]
fn w3_to_w5_withdraw_and_add_back() {
    let (mut lent, _) = Buffers::new(&examples::w1(), 3);
    let before = lent.store.clone();

    let withdrawn = Changed {
        removed: 10,
        returned: 0,
        gained: 0,
        touched: 4,
    };
    assert_eq!(lent.withdraw(1, 5), Ok(withdrawn));
    assert_eq!(lent.list[..8], [0, 0, 1, 0, 4, 0, 5, 0]);
    assert!(lent.list[8..].iter().all(|&byte| byte == FILL));
    assert_eq!((lent.marks(7, 14), lent.marks(14, 35)), (8, 3));
    assert_eq!(lent.store[35..], [FILL; 3]);
    assert_eq!(lent.work[..28], [0; 28]);
    assert_eq!(lent.work[28..], [FILL; 3]);

    assert_eq!(lent.lookup(5, 5), Err(refusal(19)));
    assert_eq!(lent.lookup(0, 5), Err(refusal(19)));
    assert_eq!(lent.lookup(5, 0), Err(refusal(19)));

    let added = Changed {
        removed: 0,
        returned: 0,
        gained: 10,
        touched: 4,
    };
    assert_eq!(lent.add(1, 5), Ok(added));
    assert_eq!(lent.store, before);
}

#[test]
fn w6_a_pair_returns() {
    let (mut lent, _) = Buffers::new(&examples::w6(), 0);
    let changed = Changed {
        removed: 10,
        returned: 1,
        gained: 0,
        touched: 4,
    };
    assert_eq!(lent.withdraw(1, 5), Ok(changed));
    assert_eq!(lent.lookup(0, 3), Ok(true));
}

#[test]
fn w7_a_cycle_does_not_hold_itself_up() {
    let (mut lent, counts) = Buffers::new(&examples::w7(), 0);
    assert_eq!(counts, Counts { pairs: 7, links: 0 });
    let changed = Changed {
        removed: 2,
        returned: 0,
        gained: 0,
        touched: 1,
    };
    assert_eq!(lent.withdraw(0, 1), Ok(changed));
    assert_eq!(lent.list[..2], [0, 0]);
    assert_eq!(lent.marks(3, 6), 5);
    assert_eq!(lent.store[3], 1);
}

/// Request Four: an axiom moved, and what is left.
#[test]
fn w1_moves() {
    let moves = [
        ((1, 5), (0, 6), [10, 3, 0], vec![0, 1, 4, 5], (10, 4)),
        ((0, 4), (2, 4), [5, 0, 5], vec![0, 2], (14, 7)),
        ((1, 5), (0, 5), [8, 0, 2], vec![0, 1, 4], (10, 5)),
    ];
    for (out, into, counts, touched, left) in moves {
        let (mut lent, _) = Buffers::new(&examples::w1(), 0);
        let before = lent.store.clone();
        assert_eq!(lent.changed(&[out], &[into]), (counts, touched));
        assert_eq!((lent.marks(7, 14), lent.marks(14, 35)), left);
        lent.changed(&[into], &[out]);
        assert_eq!(lent.store, before);
    }
}

/// A pair that a new axiom derives again is returned, not gained.
#[test]
fn w7_a_move() {
    let (mut lent, _) = Buffers::new(&examples::w7(), 0);
    assert_eq!(lent.changed(&[(0, 1)], &[(0, 2)]), ([2, 2, 0], vec![0]));
}

/// Two empty lists change no pair and no link, of a right store and of a wrong one.
#[test]
fn empty_lists() {
    let (mut lent, _) = Buffers::new(&examples::w1(), 2);
    for (at, mask) in [(0, 0), (7, 2), (20, 2), (0, 2)] {
        lent.store[at] ^= mask;
        let (before, list) = (lent.store.clone(), lent.list.clone());
        lent.work.fill(FILL);
        assert_eq!(lent.changed(&[], &[]), ([0, 0, 0], vec![]));
        assert_eq!((&lent.store, &lent.list), (&before, &list));
        assert_eq!(lent.work[..28], [0; 28]);
        assert_eq!(lent.work[28..], [FILL; 2]);
    }
}

/// The order inside a list is without effect.
#[test]
fn permuted_lists() {
    let (out, into) = ([(0, 4), (1, 5), (6, 3)], [(2, 4), (0, 5), (5, 6), (4, 3)]);
    let (mut first, _) = Buffers::new(&examples::w1(), 1);
    let counts = first.change(&out, &into);
    assert!(counts.is_ok());
    for turn in 0..12 {
        let (mut out, mut into) = (out, into);
        out.rotate_left(turn % 3);
        into.rotate_left(turn % 4);
        if turn % 2 == 1 {
            out.reverse();
            into.swap(0, 2);
        }
        let (mut lent, _) = Buffers::new(&examples::w1(), 1);
        assert_eq!(lent.change(&out, &into), counts);
        assert_eq!(lent.store, first.store);
        assert_eq!(
            (lent.work, lent.list),
            (first.work.clone(), first.list.clone())
        );
    }
}

/// Lists of 64 axioms, and longer ones or such that are not of whole axioms.
#[test]
fn long_lists() {
    let catalogue = Catalogue {
        concepts: vec![Concept::Atomic; 66],
        axioms: vec![],
        ..examples::w7()
    };
    let (mut lent, _) = Buffers::new(&catalogue, 0);
    let before = lent.store.clone();
    let axioms: Vec<Axiom> = (0..65).map(|i| (i, i + 1)).collect();
    assert_eq!(lent.change(&[], &axioms), Err(refusal(22)));
    assert_eq!(lent.change(&axioms, &[]), Err(refusal(22)));
    let bytes = list(&axioms);
    for length in [1, 2, 3, 5, 255, 257, 258, 259] {
        assert_eq!(lent.change_by(&bytes[..length], &[]), Err(refusal(22)));
        assert_eq!(lent.change_by(&[], &bytes[..length]), Err(refusal(22)));
    }
    assert_eq!(lent.store, before);
    lent.changed(&[], &axioms[..64]);
    lent.changed(&axioms[..64], &axioms[64..]);
    lent.changed(&axioms[64..], &[]);
    assert_eq!(lent.store, before);
}

#[test]
fn w8_no_axioms() {
    let (lent, counts) = Buffers::new(&examples::w8(), 0);
    assert_eq!(counts, Counts { pairs: 4, links: 0 });
    assert_eq!(lent.store[7..14], [1, 2, 4, 8, 0, 0, 0]);
    assert_eq!((lent.marks(0, 7), lent.marks(14, 35)), (0, 0));
    for c in 0..7 {
        for d in 0..7 {
            let atomic = c < 4 && d < 4;
            let answer = if atomic { Ok(c == d) } else { Err(refusal(19)) };
            assert_eq!(lent.lookup(c, d), answer);
        }
    }
}

/// A kind without axioms: its listing and its row; then its first axiom.
#[test]
fn w8_a_kind_without_axioms() {
    let (mut lent, _) = Buffers::new(&examples::w8(), 0);
    let Buffers {
        catalogue,
        store,
        list,
        ..
    } = &mut lent;
    assert_eq!(calls::listing(catalogue, 2, store, list), Ok(1));
    assert_eq!(list[..4], [2, 0, FILL, FILL]);
    assert_eq!(calls::listing(catalogue, 4, store, list), Err(refusal(19)));
    let row = calls::row(catalogue, 2, store).expect("an accepted call");
    assert_eq!((row.offset, row.bytes), (9, &[4][..]));
    assert_eq!(calls::row(catalogue, 4, store), Err(refusal(19)));

    let changed = Changed {
        removed: 0,
        returned: 0,
        gained: 4,
        touched: 2,
    };
    assert_eq!(lent.add(0, 4), Ok(changed));
    assert_eq!(lent.list[..4], [0, 0, 4, 0]);
}

/// A top occurs by an axiom; then every atomic lies under it.
#[test]
fn a_top_without_axioms() {
    let (mut lent, counts) = Buffers::new(&examples::tops().bare(), 0);
    assert_eq!(counts, Counts { pairs: 2, links: 0 });
    assert_eq!(lent.lookup(4, 4), Ok(true));
    assert_eq!(lent.lookup(4, 1), Err(refusal(19)));
    let changed = Changed {
        removed: 0,
        returned: 0,
        gained: 3,
        touched: 3,
    };
    assert_eq!(lent.add(0, 1), Ok(changed));
    assert_eq!(lent.list[..6], [0, 0, 1, 0, 4, 0]);
    assert_eq!(lent.lookup(4, 1), Ok(true));
    assert_eq!(lent.lookup(4, 2), Err(refusal(19)));
}

/// Without axioms a store was all zeros before atomic records occurred from the start.
/// Now it is wrong: a lookup says a false no, and it must be classified again.
#[test]
fn a_store_from_before() {
    let (mut lent, _) = Buffers::new(&examples::w8(), 0);
    lent.store.fill(0);
    let added = Changed {
        removed: 0,
        returned: 0,
        gained: 2,
        touched: 1,
    };
    assert_eq!(lent.add(0, 4), Ok(added));
    assert_eq!(lent.list[..2], [4, 0]);
    assert_eq!(lent.lookup(0, 4), Ok(false));
    let again = Catalogue {
        axioms: vec![(0, 4)],
        ..examples::w8()
    };
    let (again, _) = Buffers::new(&again, 0);
    assert_eq!(lent.store[..7], again.store[..7]);
    assert_eq!(again.lookup(0, 4), Ok(true));

    // A withdrawal repairs the partitions that it breaks: here all that lacked a pair.
    let (mut lent, _) = Buffers::new(&examples::tops().bare(), 0);
    let fresh = lent.store.clone();
    lent.store.fill(0);
    let added = Changed {
        removed: 0,
        returned: 0,
        gained: 3,
        touched: 3,
    };
    assert_eq!(lent.add(0, 1), Ok(added));
    assert_eq!(lent.store[5..10], [2, 2, 0, 0, 2]);
    assert_eq!(lent.lookup(4, 1), Ok(true));
    assert_eq!(lent.lookup(4, 4), Ok(false));
    let withdrawn = Changed {
        removed: 3,
        returned: 0,
        gained: 2,
        touched: 3,
    };
    assert_eq!(lent.withdraw(0, 1), Ok(withdrawn));
    assert_eq!(lent.store[5..10], [1, 0, 0, 0, 16]);
    assert_eq!(lent.store, fresh);
}

#[test]
fn w9_spare_bits() {
    let (mut seven, _) = Buffers::new(&examples::w1(), 1);
    for at in 0..35 {
        seven.store[at] ^= 128;
        assert_eq!(seven.lookup(0, 3), Err(refusal(13)));
        let before = seven.store.clone();
        assert_eq!(seven.add(7, 0), Err(refusal(13)));
        assert_eq!(seven.store, before);
        seven.store[at] ^= 128;
    }
    seven.store[35] ^= 128;
    assert_eq!(seven.lookup(0, 3), Ok(true));

    let (mut eight, _) = Buffers::new(&examples::w9(), 0);
    for at in 0..eight.store.len() {
        eight.store[at] ^= 128;
        assert!(eight.lookup(0, 3).is_ok());
        eight.store[at] ^= 128;
    }
}

#[test]
fn w10_at_most_4096_axioms() {
    let (mut lent, counts) = Buffers::new(&examples::w10(), 0);
    assert_eq!(
        counts,
        Counts {
            pairs: 4097,
            links: 0
        }
    );
    let before = lent.store.clone();
    assert_eq!(lent.add(3, 5), Err(refusal(16)));
    assert_eq!(lent.add(64, 0), Err(refusal(17)));
    let two = [(64, 0), (64, 1)];
    assert_eq!(lent.change(&[(3, 5)], &two), Err(refusal(17)));
    assert_eq!(lent.store, before);
    // One out and one in.
    lent.changed(&[(3, 5)], &two[..1]);
    assert_eq!(lent.lookup(64, 3), Ok(true));
    lent.changed(&two[..1], &[(3, 5)]);
    assert_eq!(lent.store, before);
    // One axiom more than the limit, marked by hand in the row of concept 64.
    lent.store[64 * 9] = 1;
    assert_eq!(lent.lookup(0, 1), Err(refusal(14)));
}

#[test]
fn sizes_are_the_least_that_the_calls_take() {
    let w1 = Sizes {
        store: 35,
        work: 28,
        list: 14,
        output: 264,
    };
    assert_eq!(calls::sizes(&examples::w1().bytes()), Ok(w1));
    for (name, catalogue) in examples::EXAMPLES {
        let catalogue = catalogue().bare();
        let n = catalogue.concepts.len();
        let bytes = catalogue.bytes();
        let sizes = calls::sizes(&bytes).expect("an accepted catalogue");
        let mut store = vec![FILL; sizes.store];
        let mut work = vec![FILL; sizes.work];
        let short = calls::classify(&bytes, &mut store, &mut work[1..]);
        assert_eq!(short, Err(refusal(11)), "{name}");
        let short = calls::classify(&bytes, &mut store[1..], &mut work);
        assert_eq!(short, Err(refusal(10)), "{name}");
        let classified = calls::classify(&bytes, &mut store, &mut work);
        assert!(classified.is_ok(), "{name}");
        let mut list = vec![FILL; sizes.list];
        let short = calls::listing(&bytes, 0, &store, &mut list[1..]);
        assert_eq!(short, Err(refusal(12)), "{name}");
        assert!(calls::listing(&bytes, 0, &store, &mut list).is_ok());

        // As many axioms as can be in force, marked by hand.
        for (left, right) in (0..n).flat_map(|c| (0..n).map(move |d| (c, d))).take(4096) {
            store[left * n.div_ceil(8) + right / 8] |= 1 << (right % 8);
        }
        let mut output = vec![FILL; sizes.output];
        let short = calls::write(&bytes, &store, &mut output[1..]);
        assert_eq!(short, Err(refusal(20)), "{name}");
        let whole = calls::write(&bytes, &store, &mut output);
        assert_eq!(whole, Ok(sizes.output), "{name}");
    }
}

#[test]
fn headers() {
    assert_eq!(
        Catalogue::read(&examples::w1().bytes()[..19]),
        Err(refusal(1))
    );
    let concepts = |n| Catalogue {
        concepts: vec![Concept::Atomic; n],
        axioms: vec![],
        ..examples::w7()
    };
    assert!(Catalogue::read(&concepts(512).bytes()).is_ok());
    assert_eq!(Catalogue::read(&concepts(513).bytes()), Err(refusal(3)));
}

#[test]
fn listing_program() {
    let text = "concepts 7 axioms 3 pairs 14 links 7\n0 3\n";
    assert_eq!(listing::text(&examples::w1().bytes()), text);
    assert_eq!(listing::text(&[0; 19]), "refused 1\n");
    assert_eq!(listing::text(&vec![0; 65_536]), "refused 2\n");
    assert_eq!(listing::text(&vec![0; 70_000]), "refused 2\n");
}

#[test]
fn list_row_and_write() {
    let (mut lent, _) = Buffers::new(&examples::w1(), 0);
    let Buffers {
        catalogue,
        store,
        list,
        ..
    } = &mut lent;
    assert_eq!(calls::listing(catalogue, 3, store, list), Ok(2));
    assert_eq!(list[..4], [0, 0, 3, 0]);
    assert!(list[4..].iter().all(|&byte| byte == FILL));
    let row = calls::row(catalogue, 4, store).expect("an accepted call");
    assert_eq!((row.offset, row.bytes), (11, &[88][..]));

    lent.withdraw(0, 4).expect("an accepted call");
    let mut output = vec![FILL; 77];
    assert_eq!(
        calls::write(&lent.catalogue, &lent.store, &mut output[..75]),
        Err(refusal(20))
    );
    assert!(output.iter().all(|&byte| byte == FILL));
    assert_eq!(
        calls::write(&lent.catalogue, &lent.store, &mut output),
        Ok(76)
    );
    assert_eq!(output[76], FILL);
    let written = Catalogue {
        axioms: vec![(1, 5), (6, 3)],
        ..examples::w1()
    };
    assert_eq!(Catalogue::read(&output[..76]), Ok(written));
}

/// Document 001, Examples 1 and 3: 19 subsumptions; withdrawing the last axiom
/// breaks the partitions of B, ∃S.A and ∃S.C.
#[test]
fn example_of_the_source() {
    let (mut lent, counts) = Buffers::new(&examples::example1(), 0);
    assert_eq!(counts.pairs, 19);
    let changed = lent.withdraw(6, 2).expect("an accepted call");
    assert_eq!(
        (changed.returned, changed.gained, changed.touched),
        (0, 0, 3)
    );
    assert_eq!(lent.list[..6], [1, 0, 5, 0, 6, 0]);
    assert_eq!(lent.marks(7, 14), 13);
}

/// An inference is one use of a rule: withdrawing (1, 1) over-deletes what it
/// gave, though rules 1 and 3 give the same still.
#[test]
fn a_self_axiom() {
    let axioms = vec![(0, 1), (1, 1)];
    let concepts = vec![Concept::Atomic; 2];
    let catalogue = Catalogue {
        concepts,
        axioms,
        ..examples::w7()
    };
    let (mut lent, counts) = Buffers::new(&catalogue, 0);
    assert_eq!(counts.pairs, 3);
    let changed = Changed {
        removed: 2,
        returned: 2,
        gained: 0,
        touched: 2,
    };
    assert_eq!(lent.withdraw(1, 1), Ok(changed));
}

/// An atomic's own pair is over-deleted by its own axiom, and returns without it.
#[test]
fn an_own_pair_returns() {
    let catalogue = Catalogue {
        axioms: vec![(1, 1)],
        ..examples::w7()
    };
    let (mut lent, counts) = Buffers::new(&catalogue, 0);
    assert_eq!(counts.pairs, 3);
    let changed = Changed {
        removed: 1,
        returned: 1,
        gained: 0,
        touched: 1,
    };
    assert_eq!(lent.withdraw(1, 1), Ok(changed));
    assert_eq!(lent.store[3..6], [1, 2, 4]);
}

/// Every built-in catalogue passes its checks.
#[test]
fn built_in_catalogues() {
    for (name, make) in examples::EXAMPLES {
        assert!(Catalogue::read(&make().bytes()).is_ok(), "{name}");
    }
    assert!(examples::named("w7").is_some() && examples::named("w").is_none());
    let (lent, _) = Buffers::new(&examples::chain(16), 0);
    assert!((0..16).all(|c| lent.lookup(c, 17) == Ok(true)));
}
