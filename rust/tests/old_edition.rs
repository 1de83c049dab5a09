//! The saved files of the old edition are read as the reader of that edition
//! read them.

use independent::reader::{output, read};
use std::path::Path;
use std::{fs, io};

#[test]
fn old_files_are_printed_as_before() -> io::Result<()> {
    let directory = Path::new(env!("CARGO_MANIFEST_DIR")).join("tests/old_edition");
    let mut files = 0;
    for entry in fs::read_dir(directory)? {
        let path = entry?.path();
        if path
            .extension()
            .is_none_or(|extension| extension != "saved")
        {
            continue;
        }
        let saved = fs::read(&path)?;
        let printed = fs::read(path.with_extension("printed"))?;
        let verdict = read(saved.as_slice()).expect("bytes do not fail");
        assert_eq!(output(&verdict), printed, "{path:?}");
        files += 1;
    }
    assert_eq!(files, 200);
    Ok(())
}
