//! Files of cases with expected answers: each step is run by an implementation
//! of the calls, and its answer and the buffers are compared.

#[path = "json.rs"]
mod json;
#[path = "sha256.rs"]
mod sha256;

use json::Json;
use reference::calls::{self, Changed, Counts, Row};
use reference::catalogue::{Catalogue, Refusal};
use reference::store::Layout;
use std::collections::{BTreeMap, BTreeSet};
use std::path::{Path, PathBuf};
use std::time::Instant;

/// An implementation of the calls: each is the reference's where no other is given.
pub trait Calls {
    fn classify(
        &self,
        catalogue: &[u8],
        store: &mut [u8],
        work: &mut [u8],
    ) -> Result<Counts, Refusal> {
        calls::classify(catalogue, store, work)
    }

    fn change(
        &self,
        catalogue: &[u8],
        withdrawn: &[u8],
        added: &[u8],
        store: &mut [u8],
        work: &mut [u8],
        touched: &mut [u8],
    ) -> Result<Changed, Refusal> {
        calls::change(catalogue, withdrawn, added, store, work, touched)
    }

    fn lookup(&self, catalogue: &[u8], c: usize, d: usize, store: &[u8]) -> Result<bool, Refusal> {
        calls::lookup(catalogue, c, d, store)
    }

    fn listing(
        &self,
        catalogue: &[u8],
        d: usize,
        store: &[u8],
        list: &mut [u8],
    ) -> Result<usize, Refusal> {
        calls::listing(catalogue, d, store, list)
    }

    fn row<'a>(&self, catalogue: &[u8], c: usize, store: &'a [u8]) -> Result<Row<'a>, Refusal> {
        calls::row(catalogue, c, store)
    }

    fn write(&self, catalogue: &[u8], store: &[u8], output: &mut [u8]) -> Result<usize, Refusal> {
        calls::write(catalogue, store, output)
    }
}

/// How many steps were run, by their call.
pub type Tally = BTreeMap<String, usize>;

const BUFFERS: [&str; 4] = ["store", "work", "list", "out"];

/// The four buffers, each by its name.
type Buffers = BTreeMap<String, Vec<u8>>;

/// An answer as the vectors write it: a word and numbers.
fn answer(word: &str, numbers: &[usize]) -> Json {
    let words = std::iter::once(Json::Text(word.to_string()));
    Json::List(
        words
            .chain(numbers.iter().map(|&number| Json::Number(number)))
            .collect(),
    )
}

fn refused(refusal: Refusal) -> Json {
    answer("refused", &[refusal.number, refusal.record])
}

/// The call that a step makes.
fn call(step: &Json) -> &str {
    step.get("call").expect("a call").text()
}

/// Runs a step's call on the lent parts of the buffers.
fn run(calls: &impl Calls, step: &Json, catalogue: &[u8], buffers: &mut Buffers) -> Json {
    let lists = ["withdrawn", "added"].map(|name| match step.get("args") {
        Some(args @ Json::Object(_)) => args.get(name).expect("a list").hex(),
        _ => vec![],
    });
    let arguments: Vec<usize> = match step.get("args") {
        Some(Json::List(list)) => list.iter().map(Json::number).collect(),
        _ => vec![],
    };
    // Each buffer is taken out, lent in part, and put back.
    let mut whole = BUFFERS.map(|name| buffers.remove(name).expect("a buffer"));
    let mut lent = BUFFERS.iter().zip(&mut whole).map(|(name, bytes)| {
        let length = step.get(name).map_or(bytes.len(), Json::number);
        &mut bytes[..length]
    });
    let mut next = || lent.next().expect("a buffer");
    let (store, work, list, out) = (next(), next(), next(), next());
    let result = match (call(step), &arguments[..]) {
        ("classify", []) => calls
            .classify(catalogue, store, work)
            .map(|counts| answer("classified", &[counts.pairs, counts.links])),
        ("change", []) => calls
            .change(catalogue, &lists[0], &lists[1], store, work, list)
            .map(|c| answer("changed", &[c.removed, c.returned, c.gained, c.touched])),
        ("lookup", &[c, d]) => calls
            .lookup(catalogue, c, d, store)
            .map(|yes| answer(if yes { "yes" } else { "no" }, &[])),
        ("listing", &[d]) => calls
            .listing(catalogue, d, store, list)
            .map(|count| answer("listed", &[count])),
        ("row", &[c]) => calls.row(catalogue, c, store).map(|row| {
            assert_eq!(row.bytes, step.get("row").expect("a row").hex(), "row");
            answer("row", &[row.offset, row.bytes.len()])
        }),
        ("write", []) => calls
            .write(catalogue, store, out)
            .map(|length| answer("written", &[length])),
        other => panic!("unknown call {other:?}"),
    };
    for (name, bytes) in BUFFERS.iter().zip(whole) {
        buffers.insert(name.to_string(), bytes);
    }
    result.unwrap_or_else(refused)
}

/// Changes the bytes that a step wants changed before its call.
fn poke(step: &Json, buffers: &mut Buffers) {
    for change in step.get("poke").map_or(&[][..], Json::list) {
        let [buffer, offset, mask] = change.list() else {
            panic!("three parts: {change:?}");
        };
        let bytes = buffers.get_mut(buffer.text()).expect("a buffer");
        bytes[offset.number()] ^= u8::try_from(mask.number()).expect("a byte");
    }
}

/// Compares the whole buffers with what a step says of them.
fn compare_buffers(step: &Json, buffers: &Buffers, place: &str) {
    for name in BUFFERS {
        if let Some(bytes) = step.get("bytes").and_then(|all| all.get(name)) {
            assert_eq!(buffers[name], bytes.hex(), "{place}: bytes of {name}");
        }
        let digest = step
            .get("sha256")
            .and_then(|all| all.get(name))
            .expect("a digest");
        assert_eq!(
            sha256::sha256(&buffers[name]),
            digest.text(),
            "{place}: digest of {name}"
        );
    }
}

/// Where a step gives the axioms in force, the store is right: it marks them,
/// and equals a store classified afresh from them.
fn compare_axioms(calls: &impl Calls, step: &Json, catalogue: &[u8], store: &[u8], place: &str) {
    let Some(given) = step.get("book") else {
        return;
    };
    let mut catalogue = Catalogue::read(catalogue).expect("an accepted catalogue");
    let layout = Layout::new(&catalogue);
    let side = |axiom: &Json, i: usize| axiom.list()[i].number();
    let given: BTreeSet<_> = given
        .list()
        .iter()
        .map(|x| (side(x, 0), side(x, 1)))
        .collect();
    assert_eq!(layout.axioms(store), given, "{place}: axioms in force");
    catalogue.axioms = given.into_iter().collect();
    let mut fresh = vec![0; layout.store_length()];
    let mut work = vec![0; layout.work_length()];
    calls
        .classify(&catalogue.bytes(), &mut fresh, &mut work)
        .expect("an accepted catalogue");
    assert_eq!(store[..fresh.len()], fresh, "{place}: classified afresh");
}

/// A file: its catalogue, and the rest as it is written.
pub struct Vector {
    pub path: PathBuf,
    pub catalogue: Vec<u8>,
    contents: Json,
}

impl Vector {
    fn read(path: &Path) -> Vector {
        let text = std::fs::read_to_string(path).expect("a readable file");
        let contents = Json::parse(&text);
        Vector {
            path: path.to_path_buf(),
            catalogue: contents.get("catalogue").expect("a catalogue").hex(),
            contents,
        }
    }

    /// What the listing program prints for the catalogue, where the file says it.
    #[allow(dead_code, reason = "not every test asks for it")]
    pub fn program(&self) -> Option<&str> {
        self.contents.get("program").map(Json::text)
    }

    /// Runs every step, and looks at the store after each.
    pub fn run(&self, calls: &impl Calls, mut look: impl FnMut(&[u8])) -> Tally {
        let mut buffers: Buffers = BTreeMap::new();
        for name in BUFFERS {
            let all = self.contents.get("buffers");
            let given = all.and_then(|all| all.get(name)).expect("a buffer").list();
            let fill = u8::try_from(given[1].number()).expect("a byte");
            buffers.insert(name.to_string(), vec![fill; given[0].number()]);
        }
        let mut tally = Tally::new();
        let steps = self.contents.get("steps").expect("steps").list();
        for (number, step) in steps.iter().enumerate() {
            let place = format!("{} step {number}", self.path.display());
            poke(step, &mut buffers);
            let own = step.get("catalogue").map(Json::hex);
            let catalogue = own.as_ref().unwrap_or(&self.catalogue);
            let got = run(calls, step, catalogue, &mut buffers);
            let expected = step.get("answer").expect("an answer");
            assert_eq!(&got, expected, "{place}: answer");
            compare_buffers(step, &buffers, &place);
            compare_axioms(calls, step, &self.catalogue, &buffers["store"], &place);
            look(&buffers["store"]);
            *tally.entry(call(step).to_string()).or_default() += 1;
        }
        tally
    }
}

/// The calls that the files make.
const CALLS: [&str; 6] = ["classify", "change", "lookup", "listing", "row", "write"];

/// How many files `data/vectors` has.
const FILES: usize = 72;

/// The environment variable that may name another folder.
const NAMED: &str = "GIRVOTAL_VECTORS";

/// The folder that the environment variable GIRVOTAL_VECTORS names; without it, `data/vectors` of
/// the repository.
fn folder() -> PathBuf {
    match std::env::var_os(NAMED) {
        Some(folder) => PathBuf::from(folder),
        None => Path::new(env!("CARGO_MANIFEST_DIR")).join("../data/vectors"),
    }
}

/// The files of a folder, by name. There must be some.
pub fn files(folder: &Path) -> Vec<PathBuf> {
    let shown = folder.display();
    let entries = std::fs::read_dir(folder);
    let entries = entries.unwrap_or_else(|error| panic!("the vectors' folder {shown}: {error}"));
    let paths = entries.map(|entry| entry.expect("an entry").path());
    let json = |path: &PathBuf| path.extension().is_some_and(|kind| kind == "json");
    let mut files: Vec<PathBuf> = paths.filter(json).collect();
    files.sort();
    assert!(!files.is_empty(), "no vectors in the folder {shown}");
    files
}

/// Runs every file, and prints how many steps of each call there were. There are steps of every
/// call.
pub fn run_folder(run: impl Fn(&Vector) -> Tally) -> Tally {
    let files = files(&folder());
    let all = std::env::var_os(NAMED).is_some() || files.len() >= FILES;
    assert!(all, "{} of {FILES} files of vectors", files.len());
    let mut total = Tally::new();
    for path in &files {
        let start = Instant::now();
        let tally = run(&Vector::read(path));
        let steps: usize = tally.values().sum();
        let name = path.file_stem().expect("a name").to_string_lossy();
        println!("{name}: {steps} steps, {} ms", start.elapsed().as_millis());
        for (call, count) in tally {
            *total.entry(call).or_default() += count;
        }
    }
    let steps: usize = total.values().sum();
    let of_calls: Vec<String> = total
        .iter()
        .map(|(call, count)| format!("{call} {count}"))
        .collect();
    println!(
        "vectors: {} files, {steps} steps: {}",
        files.len(),
        of_calls.join(", ")
    );
    for call in CALLS {
        assert!(total.contains_key(call), "no step of {call}");
    }
    total
}
