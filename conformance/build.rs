//! Links the proved station: `rt lib` in crates/flnet_station writes it into that folder's out/.

use std::path::Path;

fn main() {
    let folder = Path::new(env!("CARGO_MANIFEST_DIR")).join("../crates/flnet_station/out");
    let library = folder.join("libflnet_station.a");
    println!("cargo:rerun-if-changed={}", library.display());
    if !library.exists() {
        eprintln!(
            "{} is missing: run `rt lib` in crates/flnet_station first",
            library.display()
        );
        std::process::exit(1);
    }
    println!("cargo:rustc-link-search=native={}", folder.display());
    println!("cargo:rustc-link-lib=static=flnet_station");
}
