// Copies the two files of Hopter as they are and adds one line to each copy, a module that can see their private items. Links the two libraries.
use std::{env, fs, path::PathBuf};

fn main() {
    let here = PathBuf::from(env::var("CARGO_MANIFEST_DIR").unwrap());
    let out = PathBuf::from(env::var("OUT_DIR").unwrap());
    let mut modules = String::new();
    for name in ["unw_table", "unw_lsda"] {
        let from = here.join("src/unwind").join(name).with_extension("rs");
        let probe = here.join("probes").join(name).with_extension("rs");
        let to = out.join(name).with_extension("rs");
        let text = fs::read_to_string(&from).unwrap();
        fs::write(&to, format!("{text}\n#[path = {probe:?}] pub mod probe;\n")).unwrap();
        modules += &format!("#[path = {to:?}] #[allow(dead_code, unused)] pub mod {name};\n");
        println!("cargo:rerun-if-changed={}", from.display());
        println!("cargo:rerun-if-changed={}", probe.display());
    }
    fs::write(out.join("unwind.rs"), format!("pub mod unwind {{\n{modules}}}\n")).unwrap();

    let library = here.join("../target/staticlib");
    println!("cargo:rustc-link-search=native={}", library.display());
    for name in ["anrukfal", "readers"] {
        println!("cargo:rerun-if-changed={}", library.join(format!("lib{name}.a")).display());
        println!("cargo:rustc-link-lib=static={name}");
    }
}
