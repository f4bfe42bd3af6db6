//! Links our archive and the kit's. Their paths come from the environment: `bench/run` sets them.

use std::{env, path::Path, process::exit};

fn main() {
    // Ours comes first: it needs the other.
    for (variable, what) in [
        (
            "BENCH_OURS",
            "libbench.a, which `rt lib` writes",
        ),
        ("BENCH_KIT", "the C archive of the Rattle kit"),
    ] {
        println!("cargo:rerun-if-env-changed={variable}");
        let Ok(path) = env::var(variable) else {
            eprintln!("{variable} is not set: it is the path of {what}. bench/run sets it.");
            exit(1);
        };
        println!("cargo:rerun-if-changed={path}");
        let path = Path::new(&path);
        let name = path
            .file_stem()
            .and_then(|stem| stem.to_str())
            .and_then(|stem| stem.strip_prefix("lib"));
        let (Some(folder), Some(name), true) = (path.parent(), name, path.is_file()) else {
            eprintln!("{variable} is {}: there is no such archive", path.display());
            exit(1);
        };
        println!("cargo:rustc-link-search=native={}", folder.display());
        println!("cargo:rustc-link-lib=static={name}");
    }
}
