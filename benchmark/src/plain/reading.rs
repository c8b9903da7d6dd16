//! The calls that read a store, in plain Rust: the same questions in the same
//! order, asked of the bytes as they stand.

use reference::catalogue::{
    HEADER_LENGTH, MAX_AXIOMS, MAX_CONCEPTS, MAX_ROLE_AXIOMS, MAX_ROLES, Refusal, require,
};

const MAX_WIDTH: usize = MAX_CONCEPTS / 8;

/// The two-byte number at an offset, low byte first.
fn word(bytes: &[u8], at: usize) -> usize {
    usize::from(u16::from_le_bytes([bytes[at], bytes[at + 1]]))
}

fn put_word(bytes: &mut [u8], at: usize, number: usize) {
    bytes[at..at + 2].copy_from_slice(&[(number % 256) as u8, (number / 256) as u8]);
}

fn has(row: &[u8], i: usize) -> bool {
    row[i / 8] >> (i % 8) & 1 == 1
}

fn put(row: &mut [u8], i: usize) {
    row[i / 8] |= 1 << (i % 8);
}

/// The eight-byte words of some bytes.
fn words(bytes: &[u8]) -> impl Iterator<Item = u64> + '_ {
    bytes
        .as_chunks()
        .0
        .iter()
        .map(|&word| u64::from_le_bytes(word))
}

/// How many bits are set. Most blocks of 64 bytes have none, and are not counted.
fn ones(bytes: &[u8]) -> usize {
    let (blocks, rest) = bytes.as_chunks::<64>();
    let some = |block: &&[u8; 64]| words(*block).fold(0, |all, word| all | word) != 0;
    let set = blocks.iter().filter(some).flat_map(|block| words(block));
    let set = set.map(|word| word.count_ones());
    let rest = rest.iter().map(|byte| byte.count_ones());
    set.chain(rest).map(|count| count as usize).sum()
}

/// The header's counts, and where the axioms begin.
#[derive(Clone, Copy)]
struct Shape {
    n: usize,
    m: usize,
    width: usize,
    axioms_at: usize,
}

impl Shape {
    /// The bytes of a store.
    fn used(&self) -> usize {
        self.n * self.width * (self.m + 2)
    }
}

/// Refuses by `number` at the first of a section's records that is not right.
fn require_records<const N: usize>(
    number: usize,
    section: &[u8],
    right: impl Fn(usize, &[u8; N]) -> bool,
) -> Result<(), Refusal> {
    let mut records = section.as_chunks().0.iter().enumerate();
    match records.find(|&(i, record)| !right(i, record)) {
        None => Ok(()),
        Some((record, _)) => Err(Refusal { number, record }),
    }
}

/// Questions 1 to 9.
fn shape(bytes: &[u8]) -> Result<Shape, Refusal> {
    require(1, bytes.len() >= HEADER_LENGTH)?;
    let field = |i: usize| word(bytes, 2 * i);
    let (total, n, m, h, k, a) = (field(0), field(1), field(2), field(3), field(4), field(5));
    require(2, total == bytes.len())?;
    let role_axioms = h <= MAX_ROLE_AXIOMS && k <= MAX_ROLE_AXIOMS;
    let counts = (1..=MAX_CONCEPTS).contains(&n) && m <= MAX_ROLES && a <= MAX_AXIOMS;
    require(3, counts && role_axioms)?;
    let offsets = [
        HEADER_LENGTH,
        HEADER_LENGTH + 6 * n,
        HEADER_LENGTH + 6 * n + 4 * h,
        HEADER_LENGTH + 6 * n + 4 * h + 6 * k,
    ];
    let given = [field(6), field(7), field(8), field(9)];
    require(4, given == offsets && total == offsets[3] + 4 * a)?;
    let [concepts_at, inclusions_at, compositions_at, axioms_at] = offsets;
    let concepts = &bytes[concepts_at..inclusions_at];
    require_records(5, concepts, |_, c: &[u8; 6]| word(c, 0) <= 3)?;
    require_records(6, concepts, |i, c: &[u8; 6]| {
        let (first, second) = (word(c, 2), word(c, 4));
        match word(c, 0) {
            0 | 1 => first == 0 && second == 0,
            2 => first < i && second < i,
            _ => first < m && second < i,
        }
    })?;
    let inclusions = &bytes[inclusions_at..compositions_at];
    require_records(7, inclusions, |_, x: &[u8; 4]| {
        word(x, 0) < m && word(x, 2) < m
    })?;
    let compositions = &bytes[compositions_at..axioms_at];
    let below = |x: &[u8; 6]| word(x, 0) < m && word(x, 2) < m && word(x, 4) < m;
    require_records(7, compositions, |_, x| below(x))?;
    let axioms = &bytes[axioms_at..];
    require_records(8, axioms, |_, x: &[u8; 4]| word(x, 0) < n && word(x, 2) < n)?;
    let mut before = None;
    for (record, axiom) in axioms.as_chunks::<4>().0.iter().enumerate() {
        let sides = Some((word(axiom, 0), word(axiom, 2)));
        if before >= sides {
            return Err(Refusal { number: 9, record });
        }
        before = sides;
    }
    Ok(Shape {
        n,
        m,
        width: n.div_ceil(8),
        axioms_at,
    })
}

/// Questions 1 to 10.
fn open(catalogue: &[u8], store: &[u8]) -> Result<Shape, Refusal> {
    let shape = shape(catalogue)?;
    require(10, store.len() >= shape.used())?;
    Ok(shape)
}

/// Questions 13 and 14; how many axioms are in force.
fn count_axioms(shape: Shape, store: &[u8]) -> Result<usize, Refusal> {
    let Shape { n, width, .. } = shape;
    let spare = n % 8;
    let mut rows = store[..shape.used()].chunks_exact(width);
    require(
        13,
        spare == 0 || rows.all(|row| row[width - 1] >> spare == 0),
    )?;
    let count = ones(&store[..n * width]);
    require(14, count <= MAX_AXIOMS)?;
    Ok(count)
}

/// Atomic records, and the concepts that occur by the axioms in force.
fn occurring(shape: Shape, catalogue: &[u8], store: &[u8]) -> [u8; MAX_WIDTH] {
    let Shape { n, width, .. } = shape;
    let mut marks = [0; MAX_WIDTH];
    for (left, row) in store[..n * width].chunks_exact(width).enumerate() {
        if row.iter().fold(0, |all, byte| all | byte) != 0 {
            put(&mut marks, left);
            marks
                .iter_mut()
                .zip(row)
                .for_each(|(mark, byte)| *mark |= byte);
        }
    }
    let records = catalogue[HEADER_LENGTH..HEADER_LENGTH + 6 * n].chunks_exact(6);
    for (i, record) in records.enumerate().rev() {
        let kind = word(record, 0);
        if kind == 0 {
            put(&mut marks, i);
        } else if kind >= 2 && has(&marks, i) {
            put(&mut marks, word(record, 4));
            if kind == 2 {
                put(&mut marks, word(record, 2));
            }
        }
    }
    marks
}

/// Questions 13 to 15 and 19.
fn check_content(
    shape: Shape,
    catalogue: &[u8],
    named: &[usize],
    store: &[u8],
) -> Result<(), Refusal> {
    count_axioms(shape, store)?;
    require(15, named.iter().all(|&c| c < shape.n))?;
    let atomic = |&c: &usize| word(catalogue, HEADER_LENGTH + 6 * c) == 0;
    if named.iter().all(atomic) {
        return Ok(()); // an atomic concept always occurs
    }
    let marks = occurring(shape, catalogue, store);
    require(19, named.iter().all(|&c| has(&marks, c)))
}

/// The bit of a pair, in a store of n concepts.
fn pair(n: usize, width: usize, c: usize, d: usize, store: &[u8]) -> bool {
    has(&store[(n + c) * width..], d)
}

/// Whether the store has C ⊑ D: its bit alone, and no question.
#[inline(never)]
pub fn bit(catalogue: &[u8], c: usize, d: usize, store: &[u8]) -> bool {
    let n = word(catalogue, 2);
    pair(n, n.div_ceil(8), c, d, store)
}

/// Asks questions 1 to 9; the bytes of a store.
#[inline(never)]
pub fn check(catalogue: &[u8]) -> Result<usize, Refusal> {
    shape(catalogue).map(|shape| shape.used())
}

/// Whether the store has C ⊑ D.
#[inline(never)]
pub fn lookup(catalogue: &[u8], c: usize, d: usize, store: &[u8]) -> Result<bool, Refusal> {
    let shape = open(catalogue, store)?;
    check_content(shape, catalogue, &[c, d], store)?;
    Ok(pair(shape.n, shape.width, c, d, store))
}

/// Lists the atomic C with C ⊑ D; their count.
#[inline(never)]
pub fn listing(
    catalogue: &[u8],
    d: usize,
    store: &[u8],
    list: &mut [u8],
) -> Result<usize, Refusal> {
    let shape = open(catalogue, store)?;
    let Shape { n, width, .. } = shape;
    require(12, list.len() >= 2 * n)?;
    check_content(shape, catalogue, &[d], store)?;
    let mut count = 0;
    for c in 0..n {
        if word(catalogue, HEADER_LENGTH + 6 * c) == 0 && pair(n, width, c, d, store) {
            put_word(list, 2 * count, c);
            count += 1;
        }
    }
    Ok(count)
}

/// A concept's pair row: its offset in the store, and its width.
#[inline(never)]
pub fn row(catalogue: &[u8], c: usize, store: &[u8]) -> Result<(usize, usize), Refusal> {
    let shape = open(catalogue, store)?;
    check_content(shape, catalogue, &[c], store)?;
    Ok(((shape.n + c) * shape.width, shape.width))
}

/// Writes the catalogue with the axioms in force; its length.
#[inline(never)]
pub fn write(catalogue: &[u8], store: &[u8], output: &mut [u8]) -> Result<usize, Refusal> {
    let shape = open(catalogue, store)?;
    let count = count_axioms(shape, store)?;
    let Shape {
        n,
        width,
        axioms_at,
        ..
    } = shape;
    let length = axioms_at + 4 * count;
    require(20, output.len() >= length)?;
    output[..axioms_at].copy_from_slice(&catalogue[..axioms_at]);
    put_word(output, 0, length);
    put_word(output, 10, count);
    let mut at = axioms_at;
    for (left, row) in store[..n * width].chunks_exact(width).enumerate() {
        for (i, &byte) in row.iter().enumerate() {
            let mut rest = byte;
            while rest != 0 {
                put_word(output, at, left);
                put_word(output, at + 2, 8 * i + rest.trailing_zeros() as usize);
                at += 4;
                rest &= rest - 1;
            }
        }
    }
    Ok(length)
}
