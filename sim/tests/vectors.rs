//! Every trace with worked answers, in every pace. The folder can be named in VECTORS.

use std::fs;
use std::path::PathBuf;

use sim::replay::{answers, Pace};

fn folder() -> PathBuf {
    match std::env::var_os("VECTORS") {
        Some(folder) => folder.into(),
        None => PathBuf::from(env!("CARGO_MANIFEST_DIR")).join("../tests/vectors"),
    }
}

#[test]
fn every_vector() {
    let mut count = 0;
    for entry in fs::read_dir(folder()).expect("the folder of vectors") {
        let path = entry.expect("an entry of the folder").path();
        if path
            .extension()
            .map_or(true, |extension| extension != "trace")
        {
            continue;
        }
        let trace = fs::read(&path).expect("a trace");
        let expected = fs::read(path.with_extension("answers")).expect("its answers");
        for pace in [Pace::Plain, Pace::Passing, Pace::Tested] {
            let given = answers(&trace, pace).expect("answers");
            assert!(given == expected, "{} {pace:?}", path.display());
        }
        count += 1;
    }
    assert!(count >= 100, "only {count} vectors");
}
