//! Compiles the C baseline, and names the proved library where the benchmark is to
//! be linked with it.

use std::env;
use std::path::PathBuf;
use std::process::Command;

fn run(command: &mut Command) {
    let status = command.status().expect("the command starts");
    assert!(status.success(), "{command:?} failed");
}

fn main() {
    let home = PathBuf::from(env::var("CARGO_MANIFEST_DIR").unwrap());
    let out = PathBuf::from(env::var("OUT_DIR").unwrap());

    let archive = out.join("libbaseline.a");
    for name in ["clause", "graph", "judge", "record", "search", "search_columns", "search_rows"] {
        let object = out.join(format!("{name}.o"));
        run(Command::new("cc")
            .args(["-std=c11", "-O3", "-Wall", "-Wextra", "-Werror", "-fPIC", "-c"])
            .arg(home.join(format!("baseline/{name}.c")))
            .arg("-o")
            .arg(&object));
        run(Command::new("ar").arg("rcs").arg(&archive).arg(&object));
    }
    println!("cargo:rustc-link-search=native={}", out.display());
    println!("cargo:rustc-link-lib=static=baseline");
    println!("cargo:rerun-if-changed={}", home.join("baseline").display());

    if env::var_os("CARGO_FEATURE_LIBRARY").is_some() {
        let named = env::var_os("CAFRUZEK_LIB").map(PathBuf::from);
        let folder = named.unwrap_or_else(|| home.join("../crates/cafruzek/out"));
        println!("cargo:rustc-link-search=native={}", folder.display());
        println!("cargo:rustc-link-lib=static=cafruzek");
        println!("cargo:rerun-if-changed={}", folder.join("libcafruzek.a").display());
    }
    println!("cargo:rerun-if-env-changed=CAFRUZEK_LIB");
    println!("cargo:rerun-if-changed=build.rs");
}
