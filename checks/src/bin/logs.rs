//! Writes the sample logs into `examples/`, beside each the text that the log
//! program prints for it, and a table of them; and what the two programs are
//! run on and must print, the third row and the replay of all samples.

use checks::log::{replay, samples, table, walk};
use std::fs;
use std::path::Path;

fn main() -> std::io::Result<()> {
    let root = Path::new(env!("CARGO_MANIFEST_DIR")).join("..");
    let examples = root.join("examples");
    fs::create_dir_all(examples.join("logs"))?;
    for log in samples() {
        fs::write(examples.join(log.name).with_extension("log"), &log.bytes)?;
        fs::write(examples.join(log.name).with_extension("txt"), walk(&log.bytes))?;
    }
    fs::write(examples.join("logs/README.md"), table())?;

    fs::copy(examples.join("third_row.log"), root.join("crates/walk_log/stdin"))?;
    fs::copy(examples.join("third_row.txt"), root.join("crates/walk_log/stdout"))?;
    let (input, output) = replay();
    fs::write(root.join("crates/replay/stdin"), input)?;
    fs::write(root.join("crates/replay/stdout"), output)
}
