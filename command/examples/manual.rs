//! Writes the manual page and the completion anew, beside Cargo.toml.

use std::fs;
use std::path::Path;

use girvotal_command::completion::completion;
use girvotal_command::manual::manual;
use girvotal_command::verbs::VERBS;

fn main() -> std::io::Result<()> {
    let folder = Path::new(env!("CARGO_MANIFEST_DIR"));
    fs::write(folder.join("girvotal.1"), manual(VERBS))?;
    fs::write(folder.join("girvotal.bash"), completion(VERBS))
}
