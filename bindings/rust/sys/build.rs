//! Links `libeddybridge32.a` and `libeddybridge16.a`: from the folder that `EDDYBRIDGE_DIR` names, or else from where
//! `bindings/archive` leaves them in the repository for the machine that is compiled for.
use std::env;
use std::fs;
use std::path::{Path, PathBuf};
use std::process;

const VARIABLE: &str = "EDDYBRIDGE_DIR";
const USUAL_FOLDER: &str = "../../../target/lib";
const LIBRARIES: [&str; 2] = ["eddybridge32", "eddybridge16"];

fn main() {
    let target = env::var("CARGO_CFG_TARGET_ARCH").unwrap_or_default();
    let folder = folder(&target);
    println!("cargo:rerun-if-env-changed={VARIABLE}");
    println!("cargo:rustc-link-search=native={}", folder.display());
    for library in LIBRARIES {
        let archive = folder.join(format!("lib{library}.a"));
        println!("cargo:rerun-if-changed={}", archive.display());
        if let Err(reason) = check(&archive, &target) {
            eprintln!("{reason}");
            process::exit(1);
        }
        println!("cargo:rustc-link-lib=static={library}");
    }
}

/// The folder of the archives. A relative one is taken from the crate's own.
fn folder(target: &str) -> PathBuf {
    let named = env::var_os(VARIABLE).filter(|name| !name.is_empty()).map(PathBuf::from);
    let usual = || Path::new(USUAL_FOLDER).join(target);
    Path::new(env!("CARGO_MANIFEST_DIR")).join(named.unwrap_or_else(usual))
}

/// Says why an archive cannot be linked, where it cannot: it is not there, or is made for another machine.
fn check(archive: &Path, target: &str) -> Result<(), String> {
    let shown = archive.display();
    let bytes = fs::read(archive).map_err(|error| {
        format!(
            "eddybridge-sys: cannot read {shown} ({error}).\n\
             Make it with `bindings/archive` in the repository, or set {VARIABLE} to the folder that holds it: \
             see bindings/rust/README.md."
        )
    })?;
    match (machine(&bytes), machine_of(target)) {
        (Some(made_for), Some(wanted)) if made_for != wanted => Err(format!(
            "eddybridge-sys: {shown} is made for another machine than {target} (ELF machine {made_for}, not {wanted}).\n\
             Make one for it with `bindings/archive` in the repository: see bindings/rust/README.md."
        )),
        _ => Ok(()),
    }
}

/// The machine number of the first ELF object in an archive.
fn machine(archive: &[u8]) -> Option<u16> {
    let object = archive.windows(4).position(|bytes| bytes == b"\x7fELF")?;
    let number = archive.get(object + 18..object + 20)?;
    Some(u16::from_le_bytes([number[0], number[1]]))
}

/// The machine number of ELF objects for a target, where it is known here.
fn machine_of(target: &str) -> Option<u16> {
    match target {
        "x86_64" => Some(62),
        "aarch64" => Some(183),
        _ => None,
    }
}
