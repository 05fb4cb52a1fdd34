//! Links the proved static library, `crates/gumreta/out/libgumreta.a` of the repository, or that of the folder that GUMRETA_LIBRARY names, by its whole path.
//! The build scripts of packages that depend on this one find that folder in DEP_GUMRETA_LIBRARY, and that of the C header in DEP_GUMRETA_INCLUDE.
use std::path::PathBuf;

fn fail(why: String) -> ! {
    eprintln!("{why}");
    std::process::exit(1)
}

fn main() {
    println!("cargo:rerun-if-env-changed=GUMRETA_LIBRARY");
    let package = PathBuf::from(std::env::var_os("CARGO_MANIFEST_DIR").expect("cargo names the package's folder"));
    let folder = std::env::var_os("GUMRETA_LIBRARY").map_or_else(|| package.join("../../crates/gumreta/out"), PathBuf::from);
    let archive = folder.join("libgumreta.a");
    if !folder.is_absolute() {
        fail(format!("GUMRETA_LIBRARY is {}: name the folder by its whole path", folder.display()));
    }
    if !archive.is_file() {
        fail(format!(
            "{} is missing: `rt lib`, in crates/gumreta, proves and writes it",
            archive.display()
        ));
    }
    println!("cargo:rerun-if-changed={}", archive.display());
    println!("cargo:rustc-link-search=native={}", folder.display());
    println!("cargo:rustc-link-lib=static=gumreta");
    println!("cargo:library={}", folder.display());
    println!("cargo:include={}", package.join("../../c").display());
}
