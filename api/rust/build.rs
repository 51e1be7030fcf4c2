// Links the archive that `tests/archives api_c` writes: that of this repository, or of the folder that WIFOREKUN_ARCHIVES names.
use std::env;
use std::path::PathBuf;

fn main() {
    println!("cargo:rerun-if-env-changed=WIFOREKUN_ARCHIVES");
    let here = env::var("CARGO_MANIFEST_DIR").unwrap();
    let archives = env::var("WIFOREKUN_ARCHIVES").unwrap_or_else(|_| format!("{here}/../../target/staticlib"));
    let archive = PathBuf::from(format!("{archives}/libapi_c.a"));
    if !archive.exists() {
        panic!("{} is not there: `tests/archives api_c`, at the top of the repository, writes it", archive.display());
    }
    println!("cargo:rustc-link-search=native={archives}");
    println!("cargo:rustc-link-lib=static=api_c");
    println!("cargo:rerun-if-changed={}", archive.display());
}
