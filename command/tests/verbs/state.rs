//! The state file: what it has, and what is said of one that is damaged.

use girvotal::Catalogue;
use girvotal_command::state::State;

use crate::check;
use crate::support::Folder;

/// Every byte of a state changed, and every length: refused.
#[test]
fn damaged_states() {
    let folder = Folder::new();
    folder.done("classify w1.gv -o w1.state");
    let bytes = folder.read("w1.state");
    State::read(&bytes).expect("a state");
    for at in 0..bytes.len() {
        for change in [1, 128, 255] {
            let mut changed = bytes.clone();
            changed[at] ^= change;
            State::read(&changed).expect_err("refused");
        }
        State::read(&bytes[..at]).expect_err("refused");
    }
}

/// Files whose checksum is right and something else is not, each with what is said of it.
#[test]
fn crafted_states() {
    let folder = Folder::new();
    folder.done("classify w1.gv -o w1.state");
    let bytes = folder.read("w1.state");
    let at = |place: usize| u32::from_le_bytes(bytes[place..place + 4].try_into().expect("four"));
    let (names, catalogue, store) = (at(20) as usize, at(28) as usize, at(36) as usize);
    let put = |bytes: &mut Vec<u8>, place: usize, number: u32| {
        bytes[place..place + 4].copy_from_slice(&number.to_le_bytes());
    };
    let name_at = names + 4 * 11;
    type Craft<'a> = (&'a str, &'a dyn Fn(&mut Vec<u8>));
    let crafts: [Craft<'_>; 18] = [
        ("its header is cut off", &|b| b.truncate(11)),
        ("its version is 2, and 1 is read here", &|b| put(b, 8, 2)),
        ("a section lies outside it", &|b| put(b, 20, u32::MAX)),
        ("a section lies outside it", &|b| put(b, 32, u32::MAX)),
        ("a section lies outside it", &|b| put(b, 36, at(16) + 1)),
        ("its names can't be read", &|b| put(b, 44, u32::MAX)),
        ("its names can't be read", &|b| put(b, 48, u32::MAX)),
        ("its names can't be read", &|b| put(b, names, u32::MAX)),
        ("its names can't be read", &|b| b[name_at] = 0xFF),
        ("its names are not those of its catalogue", &|b| {
            put(b, 48, 2)
        }),
        ("its names are not those of its catalogue", &|b| {
            b[name_at] = 7
        }),
        ("its names are not those of its catalogue", &|b| {
            // The first name as the second: both `pillar`.
            put(b, names + 4, at(names + 4) - 6);
            b[name_at..name_at + 6].copy_from_slice(b"pillar");
            b[name_at + 6..name_at + 12].copy_from_slice(b"pillar");
            put(b, names + 4, 44 + 6);
            put(b, names + 8, 44 + 12);
        }),
        (
            "its catalogue or store is refused: the catalogue's total is not the length lent",
            &|b| {
                b[catalogue] ^= 1;
            },
        ),
        (
            "its catalogue or store is refused: a row of the store has a bit set past the last \
             concept",
            &|b| b[store] |= 128,
        ),
        ("its store is longer than its catalogue asks", &|b| {
            b.push(0);
            put(b, 40, 36);
            put(b, 16, at(16) + 1);
        }),
        ("its catalogue and its store have different axioms", &|b| {
            b[store] ^= 1
        }),
        ("its sections are not where they belong", &|b| b[60] = 1),
        ("its sections are not where they belong", &|b| {
            b.push(0);
            put(b, 16, at(16) + 1);
        }),
    ];
    for (sentence, craft) in crafts {
        let mut crafted = bytes.clone();
        craft(&mut crafted);
        assert_ne!(crafted, bytes);
        if crafted.len() >= 16 {
            let sum = crc32(&crafted[16..]);
            put(&mut crafted, 12, sum);
        }
        assert_eq!(State::read(&crafted).err().as_deref(), Some(sentence));
        folder.write("crafted.state", &crafted);
        let error =
            format!("girvotal: crafted.state is damaged: {sentence}; classify its text again\n");
        check(&folder, &[("list crafted.state pillar", 4, "", &error)]);
    }
    let mut changed = bytes.clone();
    changed[store] ^= 1;
    let wrong = State::read(&changed).err();
    assert_eq!(wrong.as_deref(), Some("its checksum is wrong"));
}

/// CRC-32, bit by bit.
fn crc32(bytes: &[u8]) -> u32 {
    let mut sum = u32::MAX;
    for &byte in bytes {
        sum ^= u32::from(byte);
        for _ in 0..8 {
            sum = (sum >> 1) ^ ((sum & 1) * 0xEDB8_8320);
        }
    }
    !sum
}

/// The most of the state's header, as docs/FORMAT.md says it.
#[test]
fn state_file() {
    let folder = Folder::new();
    folder.done("classify w1.gv -o w1.state");
    let bytes = folder.read("w1.state");
    let number = |at: usize| u32::from_le_bytes(bytes[at..at + 4].try_into().expect("four bytes"));
    let at = |at: usize| number(at) as usize;
    assert_eq!(&bytes[..8], b"GIRVOTAL");
    assert_eq!((at(8), at(16), at(44), at(48)), (1, bytes.len(), 7, 3));
    let catalogue = &bytes[at(28)..at(28) + at(32)];
    assert_eq!(catalogue, folder.read("w1.bin"));
    let store = &bytes[at(36)..at(36) + at(40)];
    assert_eq!(
        store.len(),
        Catalogue::new(catalogue).expect("accepted").sizes().store
    );
    assert_eq!(store[7..14], [89, 34, 4, 8, 88, 32, 72]);
    let name = |i: usize| {
        let place = |i: usize| at(20) + at(at(20) + 4 * i);
        std::str::from_utf8(&bytes[place(i)..place(i + 1)]).expect("UTF-8")
    };
    let names: Vec<&str> = (0..10).map(name).collect();
    let kinds = [
        "corner-pitch",
        "pillar",
        "electricity",
        "powered-pitch",
        "",
        "",
        "",
    ];
    assert_eq!(names[..7], kinds);
    assert_eq!(names[7..], ["has", "supplies", "offers"]);
}
