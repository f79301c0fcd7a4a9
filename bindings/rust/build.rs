// Where the archive is: in the folder RANJUPELI_LIB, or in target/staticlib of the repository.
use std::path::PathBuf;

fn main() {
    println!("cargo:rerun-if-env-changed=RANJUPELI_LIB");
    let own = concat!(env!("CARGO_MANIFEST_DIR"), "/../../target/staticlib");
    let folder = std::env::var_os("RANJUPELI_LIB").map_or(PathBuf::from(own), PathBuf::from);
    let archive = folder.join("libranjupeli.a");
    // also where it is missing: then cargo looks again the next time
    println!("cargo:rerun-if-changed={}", archive.display());
    let arch = std::env::var("CARGO_CFG_TARGET_ARCH").unwrap_or_default();
    if arch != "x86_64" {
        stop(format!("libranjupeli.a is for x86-64 Linux alone, and this build is for {arch}"));
    }
    if !archive.is_file() {
        stop(format!(
            "{} is missing: tools/archive in the repository proves it and writes target/staticlib/libranjupeli.a; \
             RANJUPELI_LIB names another folder that has it",
            archive.display()
        ));
    }
    println!("cargo:rustc-link-search=native={}", folder.display());
}

fn stop(what: String) -> ! {
    eprintln!("ranjupeli: {what}");
    std::process::exit(1);
}
