//! Copies each file of the crate to the build's output folder, with the accessors of that file
//! appended, and lists the copies as modules. The files themselves are only read.

use std::{env, fs, path::Path};

const FILES: [&str; 8] = [
    "slot_map",
    "waker_list",
    "futures_unordered_bounded",
    "futures_ordered_bounded",
    "futures_unordered",
    "futures_ordered",
    "merge_bounded",
    "merge_unbounded",
];

fn main() {
    let here = env::var("CARGO_MANIFEST_DIR").expect("cargo sets CARGO_MANIFEST_DIR");
    let out = env::var("OUT_DIR").expect("cargo sets OUT_DIR");
    let (here, out) = (Path::new(&here), Path::new(&out));

    let mut modules = String::new();
    for name in FILES {
        let file = format!("{name}.rs");
        let original = here.join("src").join(&file);
        let accessors = here.join("accessors").join(&file);
        println!("cargo:rerun-if-changed={}", original.display());
        println!("cargo:rerun-if-changed={}", accessors.display());

        let text = read(&original) + "\n" + &read(&accessors);
        let copy = out.join(&file);
        fs::write(&copy, text).unwrap_or_else(|e| panic!("{}: {e}", copy.display()));
        modules += &format!("#[path = {:?}]\nmod {name};\n", copy);
    }
    fs::write(out.join("modules.rs"), modules).expect("modules.rs can be written");
    println!("cargo:rerun-if-changed=build.rs");
}

fn read(path: &Path) -> String {
    fs::read_to_string(path).unwrap_or_else(|e| panic!("{}: {e}", path.display()))
}
