// Links the static libraries that `rt lib` writes in the crates testing and picker.
use std::path::Path;

fn main() {
    let here = std::env::var("CARGO_MANIFEST_DIR").unwrap();
    for name in ["testing", "picker"] {
        let archives = Path::new(&here).join("../crates").join(name).join("out");
        println!("cargo:rustc-link-search=native={}", archives.display());
        println!("cargo:rustc-link-lib=static={name}");
        println!("cargo:rerun-if-changed={}", archives.join(format!("lib{name}.a")).display());
    }
}
