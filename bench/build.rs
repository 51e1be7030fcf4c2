// Compiles the step in C, which is measured beside the proved one.
use std::env;
use std::process::Command;

fn main() {
    println!("cargo:rerun-if-changed=c/step.c");
    let out = env::var("OUT_DIR").unwrap();
    let compiler = env::var("CC").unwrap_or_else(|_| "cc".into());
    let object = format!("{out}/step.o");
    run(Command::new(compiler).args(["-std=c11", "-O3", "-Wall", "-Wextra", "-c", "c/step.c", "-o", &object]));
    run(Command::new("ar").args(["rcs", &format!("{out}/libstep.a"), &object]));
    println!("cargo:rustc-link-search=native={out}");
    println!("cargo:rustc-link-lib=static=step");
}

fn run(command: &mut Command) {
    let status = command.status().unwrap_or_else(|why| panic!("{command:?}: {why}"));
    assert!(status.success(), "{command:?}: {status}");
}
