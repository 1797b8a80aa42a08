//! Writes the folder `examples/` anew: each specification file, and beside it its expected sheet by
//! the independent implementation.

use mundrefol::{examples, plain};
use std::path::Path;
use std::{fs, io};

fn main() -> io::Result<()> {
    let folder = Path::new(env!("CARGO_MANIFEST_DIR")).join("../examples");
    for example in examples::all() {
        fs::write(folder.join(example.name), &example.bytes)?;
        let sheet = folder.join(format!("{}.sheet", example.name));
        fs::write(sheet, plain::sheet(&example.bytes))?;
    }
    Ok(())
}
