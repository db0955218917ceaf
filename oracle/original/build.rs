//! Says where the original's text lies: the folder is given in ORIGINAL, and is that which holds src/stdlib.

use std::path::Path;

fn main() {
    println!("cargo::rerun-if-env-changed=ORIGINAL");
    let folder = std::env::var("ORIGINAL")
        .expect("ORIGINAL is to name the folder that holds the original's src/stdlib/itertools.rs");
    for (name, path) in [
        ("ITERTOOLS", "src/stdlib/itertools.rs"),
        ("PROTOCOL_ITER", "src/protocol/iter.rs"),
    ] {
        let file = Path::new(&folder).join(path);
        let file = file
            .canonicalize()
            .unwrap_or_else(|error| panic!("{}: {error}", file.display()));
        println!("cargo::rerun-if-changed={}", file.display());
        println!("cargo::rustc-env={name}={}", file.display());
    }
}
