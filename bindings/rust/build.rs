//! Links the archive of the proved calls: from the folder that NORIPLIERS_LIB_DIR names, else from
//! the repository's crates/noripliers/out. An archive of another version than this crate's is refused.
use std::env;
use std::ffi::OsString;
use std::path::{Path, PathBuf};
use std::process::Command;

/// Prints the version of the archive that it is linked with.
const PROBE: &str = r#"
unsafe extern "C" {
    safe fn nori_version(version: &mut u32) -> u8;
}

fn main() {
    let mut version = 0;
    assert_eq!(nori_version(&mut version), 0);
    println!("{version}");
}
"#;

fn main() {
    println!("cargo::rerun-if-env-changed=NORIPLIERS_LIB_DIR");
    let here = Path::new(env!("CARGO_MANIFEST_DIR"));
    let folder = env::var_os("NORIPLIERS_LIB_DIR")
        .map_or_else(|| here.join("../../crates/noripliers/out"), PathBuf::from);
    let archive = folder.join("libnoripliers.a");
    println!("cargo::rerun-if-changed={}", archive.display());
    if !archive.is_file() {
        println!(
            "cargo::error={} is not there: make it by `rt lib` in crates/noripliers of the repository, \
             or name the folder that has it in NORIPLIERS_LIB_DIR",
            archive.display()
        );
        return;
    }
    if let Err(why) = same_version(&folder) {
        println!("cargo::error={}: {why}", archive.display());
        return;
    }
    println!("cargo::rustc-link-search=native={}", folder.display());
    println!("cargo::rustc-link-lib=static=noripliers");
}

fn same_version(folder: &Path) -> Result<(), String> {
    // What is built for another machine cannot be run here.
    if env::var_os("HOST") != env::var_os("TARGET") {
        return Ok(());
    }
    let number = |part: &str| env::var(part).ok().and_then(|n| n.parse::<u32>().ok());
    let own = number("CARGO_PKG_VERSION_MAJOR")
        .zip(number("CARGO_PKG_VERSION_MINOR"))
        .zip(number("CARGO_PKG_VERSION_PATCH"))
        .map(|((major, minor), patch)| 10_000 * major + 100 * minor + patch);
    let linked = linked_version(folder).ok_or("it does not tell its version by nori_version")?;
    if own == Some(linked) {
        return Ok(());
    }
    let named = format!(
        "{}.{}.{}",
        linked / 10_000,
        linked / 100 % 100,
        linked % 100
    );
    Err(format!(
        "it is version {named}, and this crate is {}",
        env!("CARGO_PKG_VERSION")
    ))
}

fn linked_version(folder: &Path) -> Option<u32> {
    let out = PathBuf::from(env::var_os("OUT_DIR")?);
    let (source, program) = (out.join("version.rs"), out.join("version"));
    std::fs::write(&source, PROBE).ok()?;
    let mut search = OsString::from("native=");
    search.push(folder);
    let built = Command::new(env::var_os("RUSTC")?)
        .args(["--edition", "2024", "-l", "static=noripliers", "-L"])
        .arg(search)
        .arg("-o")
        .arg(&program)
        .arg(&source)
        .output()
        .ok()?;
    if !built.status.success() {
        return None;
    }
    let told = Command::new(&program).output().ok()?;
    String::from_utf8(told.stdout).ok()?.trim().parse().ok()
}
