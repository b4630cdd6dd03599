//! Links libpdb_types.a: the one that stands in ../lib/x86_64-linux, or in the folder that `PDB_TYPES_LIB_DIR` names.
use std::env;
use std::path::PathBuf;

/// What the archive in the repository was built for.
const TARGET: &str = "x86_64-unknown-linux-gnu";

fn main() {
    println!("cargo:rerun-if-changed=build.rs");
    println!("cargo:rerun-if-env-changed=PDB_TYPES_LIB_DIR");
    let named = env::var_os("PDB_TYPES_LIB_DIR");
    let target = env::var("TARGET").unwrap_or_default();
    if named.is_none() && target != TARGET && target != "x86_64-unknown-linux-musl" {
        // no panic: `cargo check` and `cargo doc` link nothing, and work all the same
        println!(
            "cargo:warning=pdb_types: the library in lib/x86_64-linux is for {TARGET}, and this is {target}: it can be checked and documented, not linked; \
             PDB_TYPES_LIB_DIR names the folder of a libpdb_types.a for this target"
        );
        return;
    }
    let folder = match named {
        Some(folder) => PathBuf::from(folder),
        None => PathBuf::from(env::var_os("CARGO_MANIFEST_DIR").expect("cargo sets it")).join("../lib/x86_64-linux"),
    };
    let library = folder.join("libpdb_types.a");
    println!("cargo:rerun-if-changed={}", library.display());
    if !library.is_file() {
        println!(
            "cargo:warning=pdb_types: {} is not there: PDB_TYPES_LIB_DIR names the folder of libpdb_types.a",
            library.display()
        );
        return;
    }
    println!("cargo:rustc-link-search=native={}", folder.display());
    println!("cargo:rustc-link-lib=static=pdb_types");
}
