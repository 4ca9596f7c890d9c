//! Builds the Rust original unchanged, with the stand-ins of tools/oracle for what its source leans
//! on, where UTILES_SRC names the folder that holds `crates/utiles-core/src`.
use std::env;
use std::fs;
use std::path::{Path, PathBuf};
use std::process::Command;

fn main() {
    println!("cargo::rerun-if-env-changed=UTILES_SRC");
    let Some(source) = env::var_os("UTILES_SRC") else {
        return;
    };
    let out = PathBuf::from(env::var_os("OUT_DIR").expect("a folder to build in"));
    gather(&Path::new(&source).join("crates/utiles-core/src"), &out);
    gather(
        &Path::new(env!("CARGO_MANIFEST_DIR")).join("../../../tools/oracle/standins"),
        &out,
    );
    for macros in ["serde.rs", "thiserror.rs"] {
        rustc(&out, &["--crate-type=proc-macro", macros]);
    }
    rustc(&out, &["--crate-type=rlib", "serde_json.rs"]);
    let others = [
        "--extern=serde",
        "--extern=thiserror",
        "--extern=serde_json",
    ];
    rustc(
        &out,
        &[
            &["--crate-type=rlib", "--crate-name=utiles_core", "lib.rs"][..],
            &others,
        ]
        .concat(),
    );
    println!("cargo::rustc-link-search={}", out.display());
    println!("cargo::rustc-cfg=original");
}

fn gather(from: &Path, to: &Path) {
    println!("cargo::rerun-if-changed={}", from.display());
    for file in fs::read_dir(from).unwrap_or_else(|error| panic!("{}: {error}", from.display())) {
        let file = file.expect("a file").path();
        if file.extension().is_some_and(|kind| kind == "rs") {
            fs::copy(&file, to.join(file.file_name().expect("a name"))).expect("a copy");
        }
    }
}

/// Overflow checks are on, so that a call of the original that would wrap round unseen stops. Debug
/// assertions are off, as in its releases.
fn rustc(folder: &Path, arguments: &[&str]) {
    let rustc = env::var_os("RUSTC").expect("the compiler");
    let mut command = Command::new(rustc);
    command.current_dir(folder).args([
        "--edition=2024",
        "--cap-lints=allow",
        "-Copt-level=2",
        "-L.",
    ]);
    command
        .args(["-Coverflow-checks=on", "-Cdebug-assertions=off"])
        .args(arguments);
    assert!(
        command.status().expect("the compiler runs").success(),
        "{arguments:?}"
    );
}
