//! The sheets in samples/ are those of the texts beside them; the gate holds the bench to the same files.

use reference::bench::sheet::sheet;
use std::fs;
use std::path::Path;

#[test]
fn each_sample_has_its_sheet() {
    let samples = Path::new(env!("CARGO_MANIFEST_DIR")).join("../samples");
    let mut met = 0;
    for entry in fs::read_dir(samples).expect("samples/ is there") {
        let path = entry.expect("samples/ can be read").path();
        if path
            .extension()
            .is_some_and(|extension| extension == "jobs")
        {
            let text = fs::read(&path).expect("a text can be read");
            let printed = fs::read(path.with_extension("sheet")).expect("each text has a sheet");
            assert!(sheet(&text) == printed, "{}", path.display());
            met += 1;
        }
    }
    assert_eq!(met, 8);
}
