//! Catalogue bytes: the header, the records, and the checks on them
//! (questions 1 to 9).

pub const HEADER_LENGTH: usize = 20;
pub const MAX_CONCEPTS: usize = 512;
pub const MAX_ROLES: usize = 16;
pub const MAX_ROLE_AXIOMS: usize = 64;
pub const MAX_AXIOMS: usize = 4096;

/// The most axioms of a list that a change gets.
pub const MAX_LISTED: usize = 64;

/// The bytes of an axiom.
pub const AXIOM_LENGTH: usize = 4;

/// The number of the check that failed, and the record at fault or 0.
#[derive(Clone, Copy, Debug, PartialEq, Eq)]
pub struct Refusal {
    pub number: usize,
    pub record: usize,
}

/// A concept record. Parts are numbers of earlier records.
#[derive(Clone, Copy, Debug, PartialEq, Eq)]
pub enum Concept {
    Atomic,
    Top,
    Conjunction(usize, usize),
    Existential(usize, usize),
}

/// A concept inclusion: left side, right side.
pub type Axiom = (usize, usize);

/// A catalogue that passed its checks.
#[derive(Clone, Debug, PartialEq, Eq)]
pub struct Catalogue {
    pub concepts: Vec<Concept>,
    pub roles: usize,
    /// Role inclusions (r, s): r within s.
    pub inclusions: Vec<(usize, usize)>,
    /// Role compositions (s1, s2, s): s1 followed by s2 lies within s.
    pub compositions: Vec<(usize, usize, usize)>,
    /// The axioms of the file, strictly rising.
    pub axioms: Vec<Axiom>,
}

/// Refuses by `number`, with record 0, unless `holds`.
pub fn require(number: usize, holds: bool) -> Result<(), Refusal> {
    if holds {
        Ok(())
    } else {
        Err(Refusal { number, record: 0 })
    }
}

/// Refuses by `number` at the first of `count` records for which `holds` is
/// false.
fn require_all(number: usize, count: usize, holds: impl Fn(usize) -> bool) -> Result<(), Refusal> {
    match (0..count).find(|&record| !holds(record)) {
        None => Ok(()),
        Some(record) => Err(Refusal { number, record }),
    }
}

/// The two-byte number at an offset, low byte first.
fn word(bytes: &[u8], at: usize) -> usize {
    usize::from(bytes[at]) + 256 * usize::from(bytes[at + 1])
}

/// A two-byte number's bytes.
fn word_bytes(number: usize) -> [u8; 2] {
    u16::try_from(number)
        .expect("a two-byte number")
        .to_le_bytes()
}

/// `count` records of N numbers each, from an offset on.
fn records<const N: usize>(bytes: &[u8], at: usize, count: usize) -> Vec<[usize; N]> {
    (0..count)
        .map(|i| std::array::from_fn(|j| word(bytes, at + 2 * (N * i + j))))
        .collect()
}

/// The axioms of a list of bytes, four each: left, then right.
pub fn axioms(list: &[u8]) -> Vec<Axiom> {
    let sides = records::<2>(list, 0, list.len() / AXIOM_LENGTH);
    sides
        .into_iter()
        .map(|[left, right]| (left, right))
        .collect()
}

/// Axioms as a list of bytes.
pub fn list(axioms: &[Axiom]) -> Vec<u8> {
    let sides = axioms.iter().flat_map(|&(left, right)| [left, right]);
    sides.flat_map(word_bytes).collect()
}

/// Where each section starts, and where the last one ends, by the counts of
/// concepts, inclusions, compositions and axioms.
fn section_offsets(counts: [usize; 4]) -> [usize; 5] {
    let lengths = [6, 4, 6, AXIOM_LENGTH];
    let mut offsets = [HEADER_LENGTH; 5];
    for i in 0..4 {
        offsets[i + 1] = offsets[i] + lengths[i] * counts[i];
    }
    offsets
}

/// Whether the fields of concept record `i`, of a known kind, are as laid down.
fn fields_fit(i: usize, [kind, first, second]: [usize; 3], roles: usize) -> bool {
    match kind {
        0 | 1 => first == 0 && second == 0,
        2 => first < i && second < i,
        _ => first < roles && second < i,
    }
}

impl Concept {
    /// The concept of a record that passed checks 5 and 6.
    fn from_record([kind, first, second]: [usize; 3]) -> Concept {
        match kind {
            0 => Concept::Atomic,
            1 => Concept::Top,
            2 => Concept::Conjunction(first, second),
            _ => Concept::Existential(first, second),
        }
    }

    fn record(self) -> [usize; 3] {
        match self {
            Concept::Atomic => [0, 0, 0],
            Concept::Top => [1, 0, 0],
            Concept::Conjunction(first, second) => [2, first, second],
            Concept::Existential(role, filler) => [3, role, filler],
        }
    }

    /// The concepts that a composite is made of.
    pub fn parts(self) -> Vec<usize> {
        match self {
            Concept::Atomic | Concept::Top => vec![],
            Concept::Conjunction(first, second) => vec![first, second],
            Concept::Existential(_, filler) => vec![filler],
        }
    }
}

impl Catalogue {
    /// Reads a catalogue, with questions 1 to 9 in order. Each question is put
    /// to all its records before the next one begins.
    pub fn read(bytes: &[u8]) -> Result<Catalogue, Refusal> {
        require(1, bytes.len() >= HEADER_LENGTH)?;
        let header = records::<10>(bytes, 0, 1)[0];
        let [total, n, m, h, k, a, ..] = header;
        require(2, total == bytes.len())?;
        require(
            3,
            (1..=MAX_CONCEPTS).contains(&n)
                && m <= MAX_ROLES
                && h <= MAX_ROLE_AXIOMS
                && k <= MAX_ROLE_AXIOMS
                && a <= MAX_AXIOMS,
        )?;
        let offsets = section_offsets([n, h, k, a]);
        require(4, header[6..] == offsets[..4] && total == offsets[4])?;

        let concepts = records::<3>(bytes, offsets[0], n);
        let inclusions = records::<2>(bytes, offsets[1], h);
        let compositions = records::<3>(bytes, offsets[2], k);
        let axioms = axioms(&bytes[offsets[3]..]);
        require_all(5, n, |i| concepts[i][0] <= 3)?;
        require_all(6, n, |i| fields_fit(i, concepts[i], m))?;
        require_all(7, h, |i| inclusions[i].iter().all(|&role| role < m))?;
        require_all(7, k, |i| compositions[i].iter().all(|&role| role < m))?;
        require_all(8, a, |i| axioms[i].0 < n && axioms[i].1 < n)?;
        require_all(9, a, |i| i == 0 || axioms[i - 1] < axioms[i])?;

        Ok(Catalogue {
            concepts: concepts.into_iter().map(Concept::from_record).collect(),
            roles: m,
            inclusions: inclusions.into_iter().map(|[r, s]| (r, s)).collect(),
            compositions: compositions
                .into_iter()
                .map(|[s1, s2, s]| (s1, s2, s))
                .collect(),
            axioms,
        })
    }

    /// The same without axioms.
    pub fn bare(&self) -> Catalogue {
        Catalogue {
            axioms: vec![],
            ..self.clone()
        }
    }

    /// The length in bytes of the catalogue with `axioms` axioms.
    pub fn length_with(&self, axioms: usize) -> usize {
        self.offsets_with(axioms)[4]
    }

    fn offsets_with(&self, axioms: usize) -> [usize; 5] {
        section_offsets([
            self.concepts.len(),
            self.inclusions.len(),
            self.compositions.len(),
            axioms,
        ])
    }

    /// The catalogue's bytes.
    pub fn bytes(&self) -> Vec<u8> {
        let offsets = self.offsets_with(self.axioms.len());
        let mut words = vec![
            offsets[4],
            self.concepts.len(),
            self.roles,
            self.inclusions.len(),
            self.compositions.len(),
            self.axioms.len(),
        ];
        words.extend(&offsets[..4]);
        words.extend(self.concepts.iter().flat_map(|c| c.record()));
        words.extend(self.inclusions.iter().flat_map(|&(r, s)| [r, s]));
        words.extend(
            self.compositions
                .iter()
                .flat_map(|&(s1, s2, s)| [s1, s2, s]),
        );
        let mut bytes: Vec<u8> = words.into_iter().flat_map(word_bytes).collect();
        bytes.extend(list(&self.axioms));
        bytes
    }
}
