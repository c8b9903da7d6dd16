//! The state file: names, the catalogue with the axioms in force, and its store (docs/FORMAT.md).

use std::collections::HashSet;

use girvotal::{Axiom, Catalogue, Changed, Concept, Counts, Record, Refusal, Site};

use crate::text::{Compiled, Names, Reader, is_name};

/// The first bytes of a state file.
pub const MAGIC: [u8; 8] = *b"GIRVOTAL";

/// The version of its format.
pub const VERSION: u32 = 1;

/// The bytes of its header, where the names begin.
const HEADER: usize = 64;

/// Where the checksum stands, and from where on bytes are summed.
const CHECKSUM_AT: usize = 12;
const SUMMED_FROM: usize = 16;

/// A classified catalogue whose concepts and roles have names.
#[derive(Clone, Debug)]
pub struct State {
    /// The names.
    pub names: Names,
    /// The catalogue with the axioms in force, and its store.
    pub site: Site,
}

impl State {
    /// A catalogue, classified.
    pub fn classify(compiled: Compiled) -> Result<(State, Counts), Refusal> {
        let Compiled { catalogue, names } = compiled;
        let (site, counts) = Site::classified(catalogue)?;
        Ok((State { names, site }, counts))
    }

    /// Changes the axioms in force, in the catalogue too, and gives the kinds touched beside the
    /// counts.
    pub fn change(&mut self, withdrawn: &[Axiom], added: &[Axiom]) -> Result<Difference, Refusal> {
        let Changed {
            removed,
            returned,
            gained,
            touched,
        } = self.site.change(withdrawn, added)?;
        let touched: Vec<Concept> = touched.iter().collect();
        self.site.rewrite()?;
        let kinds = self.kinds();
        let touched = kinds.into_iter().filter(|kind| touched.contains(kind));
        Ok(Difference {
            removed,
            returned,
            gained,
            touched: touched.collect(),
        })
    }

    /// The atomic concepts, rising.
    pub fn kinds(&self) -> Vec<Concept> {
        State::kinds_of(self.site.catalogue())
    }

    /// Those of a catalogue.
    pub fn kinds_of(catalogue: Catalogue<'_>) -> Vec<Concept> {
        let numbered = (0..).map(Concept).zip(catalogue.records());
        let atomic = numbered.filter(|(_, record)| *record == Record::Atomic);
        atomic.map(|(concept, _)| concept).collect()
    }

    /// Reads arguments by its names.
    pub fn reader(&self) -> Reader {
        Reader::of(&self.names, self.site.catalogue())
    }

    /// The name of a kind.
    pub fn name(&self, kind: Concept) -> &str {
        let name = self.names.concepts[usize::from(kind.0)].as_deref();
        name.expect("kinds have names")
    }

    /// The file's bytes.
    pub fn bytes(&self) -> Vec<u8> {
        self.parts().all().concat()
    }

    /// The file's parts, the store as it lies in memory.
    pub fn parts(&self) -> Parts<'_> {
        let parts = self.unsummed();
        let [head, catalogue, gap, store] = parts.all();
        let sum = crc32(&[&head[SUMMED_FROM..], catalogue, gap, store]);
        parts.summed(sum)
    }

    /// The same with a checksum of 0.
    fn unsummed(&self) -> Parts<'_> {
        let whole = |length: usize| length.next_multiple_of(8);
        let names = name_bytes(&self.names);
        let (catalogue, store) = (self.site.catalogue().bytes(), self.site.store());
        let catalogue_at = HEADER + whole(names.len());
        let store_at = catalogue_at + whole(catalogue.len());
        let (n, m) = (self.names.concepts.len(), self.names.roles.len());
        let places = [
            [HEADER, names.len()],
            [catalogue_at, catalogue.len()],
            [store_at, store.len()],
        ];
        let fields = [VERSION as usize, 0, store_at + store.len()]
            .into_iter()
            .chain(places.into_iter().flatten())
            .chain([n, m]);
        let mut head = Vec::with_capacity(catalogue_at);
        head.extend(MAGIC);
        head.extend(fields.flat_map(number_bytes));
        head.resize(HEADER, 0);
        head.extend(names);
        head.resize(catalogue_at, 0);
        Parts {
            head,
            catalogue,
            store,
        }
    }

    /// The state in a file's bytes, or what is wrong with them.
    pub fn read(bytes: &[u8]) -> Result<State, String> {
        let sum = check_header(bytes)?;
        let number = |at: usize| number_at(bytes, at).ok_or("its header is cut off");
        let section = |at: usize| {
            let (from, length) = (number_at(bytes, at)?, number_at(bytes, at + 4)?);
            bytes.get(from..from.checked_add(length)?)
        };
        let outside = "a section lies outside it";
        let (n, m) = (number(44)?, number(48)?);
        let names = read_names(section(20).ok_or(outside)?, n, m)?;
        let catalogue = section(28).ok_or(outside)?;
        let store = section(36).ok_or(outside)?;
        let refused = |refusal: Refusal| format!("its catalogue or store is refused: {refusal}");
        let site = Site::of(catalogue.to_vec(), store.to_vec()).map_err(refused)?;
        if store.len() != site.catalogue().sizes().store {
            return Err("its store is longer than its catalogue asks".into());
        }
        if !fit(&names, site.catalogue()) {
            return Err("its names are not those of its catalogue".into());
        }
        let state = State { names, site };
        if state.site.write().map_err(refused)? != catalogue {
            return Err("its catalogue and its store have different axioms".into());
        }
        if !state.unsummed().summed(sum).are(bytes) {
            return Err("its sections are not where they belong".into());
        }
        Ok(state)
    }
}

/// A file's checksum, or what is wrong with it, the magic, the version or the length.
fn check_header(bytes: &[u8]) -> Result<u32, String> {
    if !bytes.starts_with(&MAGIC) {
        return Err("it does not begin with `GIRVOTAL`".into());
    }
    let number = |at: usize| number_at(bytes, at).ok_or("its header is cut off");
    let version = number(8)?;
    if version != VERSION as usize {
        return Err(format!(
            "its version is {version}, and {VERSION} is read here"
        ));
    }
    if number(16)? != bytes.len() {
        return Err(format!("it has {} bytes, not {}", bytes.len(), number(16)?));
    }
    let sum = crc32(&[&bytes[SUMMED_FROM..]]);
    match number(CHECKSUM_AT)? == sum as usize {
        true => Ok(sum),
        false => Err("its checksum is wrong".into()),
    }
}

/// The parts of a state file, which follow each other.
#[derive(Clone, Debug)]
pub struct Parts<'s> {
    /// The header and the names, up to a multiple of 8.
    head: Vec<u8>,
    catalogue: &'s [u8],
    store: &'s [u8],
}

impl Parts<'_> {
    /// Their bytes, and those between the catalogue and the store.
    pub fn all(&self) -> [&[u8]; 4] {
        let gap = self.catalogue.len().wrapping_neg() % 8;
        [&self.head, self.catalogue, &[0; 8][..gap], self.store]
    }

    fn summed(mut self, sum: u32) -> Self {
        self.head[CHECKSUM_AT..SUMMED_FROM].copy_from_slice(&sum.to_le_bytes());
        self
    }

    /// Whether a file has these parts, and no more.
    fn are(&self, bytes: &[u8]) -> bool {
        let all = self.all();
        let rest = all
            .iter()
            .try_fold(bytes, |rest, part| rest.strip_prefix(*part));
        rest.is_some_and(<[u8]>::is_empty)
    }
}

/// What a change did, with the kinds that it touched.
#[derive(Clone, Debug, PartialEq, Eq)]
pub struct Difference {
    /// Pairs and links removed.
    pub removed: usize,
    /// Of these, those that returned.
    pub returned: usize,
    /// Pairs and links gained.
    pub gained: usize,
    /// The kinds of which one was removed or gained, rising.
    pub touched: Vec<Concept>,
}

/// A number of the file: four bytes, low byte first.
fn number_bytes(number: usize) -> [u8; 4] {
    let number = u32::try_from(number).expect("a file's lengths and counts are far below 2^32");
    number.to_le_bytes()
}

/// The number at a place.
fn number_at(bytes: &[u8], at: usize) -> Option<usize> {
    let number = bytes.get(at..)?.first_chunk()?;
    usize::try_from(u32::from_le_bytes(*number)).ok()
}

/// The names' section: where each begins and the last ends, then their bytes.
fn name_bytes(names: &Names) -> Vec<u8> {
    let concepts = names
        .concepts
        .iter()
        .map(|name| name.as_deref().unwrap_or(""));
    let all: Vec<&str> = concepts
        .chain(names.roles.iter().map(String::as_str))
        .collect();
    let mut at = 4 * (all.len() + 1);
    let mut bytes = Vec::from(number_bytes(at));
    for name in &all {
        at += name.len();
        bytes.extend(number_bytes(at));
    }
    bytes.extend(all.concat().into_bytes());
    bytes
}

/// The names of so many concepts and roles.
fn read_names(section: &[u8], n: usize, m: usize) -> Result<Names, String> {
    let name = |i: usize| {
        let (from, to) = (number_at(section, 4 * i)?, number_at(section, 4 * i + 4)?);
        String::from_utf8(section.get(from..to)?.to_vec()).ok()
    };
    let many = |from: usize, count: usize| {
        let within = count <= section.len() && from <= section.len();
        let names = (0..if within { count } else { 0 }).map(|i| name(from + i));
        let names: Option<Vec<String>> = names.collect();
        names.filter(|_| within).ok_or("its names can't be read")
    };
    let named = |name: String| (!name.is_empty()).then_some(name);
    Ok(Names {
        concepts: many(0, n)?.into_iter().map(named).collect(),
        roles: many(n, m)?,
    })
}

/// Whether every kind and role has a name, no two the same.
fn fit(names: &Names, catalogue: Catalogue<'_>) -> bool {
    let mut seen = HashSet::new();
    let mut good = |name: &String| is_name(name) && seen.insert(name.clone());
    let mut concepts = names.concepts.iter().zip(catalogue.records());
    names.concepts.len() == catalogue.concepts()
        && names.roles.len() == catalogue.roles()
        && names.roles.iter().all(&mut good)
        && concepts.all(|(name, record)| match name {
            Some(name) => good(name),
            None => record != Record::Atomic,
        })
}

/// The CRC-32 of zlib, PNG and Ethernet, of parts that follow each other.
fn crc32(parts: &[&[u8]]) -> u32 {
    !parts
        .iter()
        .fold(u32::MAX, |sum, part| crc_steps(sum, part))
}

/// The sum after some bytes more, eight at a time.
fn crc_steps(mut sum: u32, bytes: &[u8]) -> u32 {
    let mut eights = bytes.chunks_exact(8);
    for eight in &mut eights {
        let low = sum.to_le_bytes();
        let mixed = |i: usize| eight[i] ^ low.get(i).unwrap_or(&0);
        sum = (0..8).fold(0, |sum, i| sum ^ CRC_TABLES[7 - i][usize::from(mixed(i))]);
    }
    eights.remainder().iter().fold(sum, crc_step)
}

/// The sum after one byte more.
fn crc_step(sum: u32, byte: &u8) -> u32 {
    CRC_TABLES[0][usize::from(sum as u8 ^ byte)] ^ (sum >> 8)
}

/// What a byte adds to the sum: table k where k bytes follow it.
static CRC_TABLES: [[u32; 256]; 8] = {
    let mut tables = [[0; 256]; 8];
    let mut i = 0;
    while i < 256 {
        let mut value = i as u32;
        let mut bit = 0;
        while bit < 64 {
            let low = value & 1;
            value >>= 1;
            if low == 1 {
                value ^= 0xEDB8_8320;
            }
            bit += 1;
            if bit % 8 == 0 {
                tables[bit / 8 - 1][i] = value;
            }
        }
        i += 1;
    }
    tables
};

#[cfg(test)]
mod tests {
    use super::*;
    use reference::random::Random;

    /// The check value that descriptions of CRC-32 give.
    #[test]
    fn crc32_of_the_digits() {
        assert_eq!(crc32(&[b"123456789"]), 0xCBF4_3926);
        assert_eq!(crc32(&[b"123", b"", b"456789"]), 0xCBF4_3926);
    }

    /// By eight bytes it is the same as byte by byte.
    #[test]
    fn crc32_of_random_bytes() {
        let random = &mut Random::new(0);
        for length in (0..64).chain([1_000, 4_095, 65_537]) {
            let bytes: Vec<u8> = (0..length).map(|_| random.below(256) as u8).collect();
            let sum = !bytes.iter().fold(u32::MAX, crc_step);
            assert_eq!(crc32(&[&bytes]), sum, "{length} bytes");
        }
    }
}
