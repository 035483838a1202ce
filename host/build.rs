//! Tells rustc where libjuopmorin.a is: in the folder JUOPMORIN_LIBS, or in target/staticlib of this repository, where
//! it is proved and built (tools/prove) if it is missing and `rt` is on the PATH.

use std::env;
use std::path::{Path, PathBuf};
use std::process::{exit, Command};

const LIBRARY: &str = "libjuopmorin.a";
const COMMAND: &str = "tools/prove juopmorin";

fn main() {
    println!("cargo:rerun-if-changed=build.rs");
    println!("cargo:rerun-if-env-changed=JUOPMORIN_LIBS");
    refuse_other_platforms();
    let libs = match env::var_os("JUOPMORIN_LIBS") {
        Some(folder) => given(PathBuf::from(folder)),
        None => built(&repository()),
    };
    println!("cargo:rerun-if-changed={}", libs.join(LIBRARY).display());
    println!("cargo:rustc-link-search=native={}", libs.display());
}

fn fail(message: &str) -> ! {
    eprintln!("juopmorin: {message}");
    exit(1)
}

fn refuse_other_platforms() {
    let set = |name: &str| env::var(name).unwrap_or_default();
    let (system, machine) = (set("CARGO_CFG_TARGET_OS"), set("CARGO_CFG_TARGET_ARCH"));
    if (system.as_str(), machine.as_str()) != ("linux", "x86_64") {
        fail(&format!(
            "the proved library {LIBRARY} is for Linux on x86-64 only, and this build is for {system} on {machine}; \
             build with --target x86_64-unknown-linux-gnu"
        ));
    }
}

fn repository() -> PathBuf {
    let here = env::var_os("CARGO_MANIFEST_DIR").expect("cargo sets it");
    Path::new(&here).parent().expect("this crate's folder stands in the repository").to_path_buf()
}

/// The folder that the program's builder named.
fn given(folder: PathBuf) -> PathBuf {
    if !folder.join(LIBRARY).is_file() {
        fail(&format!(
            "JUOPMORIN_LIBS names {}, which has no {LIBRARY}; '{COMMAND}' in the repository of juopmorin proves it and \
             writes it to target/staticlib there",
            folder.display()
        ));
    }
    folder
}

/// The repository's own folder, with the library in it.
fn built(repository: &Path) -> PathBuf {
    let folder = repository.join("target/staticlib");
    if folder.join(LIBRARY).is_file() {
        return folder;
    }
    eprintln!("juopmorin: {LIBRARY} is missing: '{COMMAND}' proves and builds it, which takes minutes");
    let at = repository.display();
    match Command::new(repository.join("tools/prove")).arg("juopmorin").status() {
        Ok(status) if status.success() && folder.join(LIBRARY).is_file() => {
            println!("cargo:warning={LIBRARY} was missing: '{COMMAND}' has proved and built it, which takes minutes");
            folder
        }
        Ok(status) => fail(&format!("'{COMMAND}' in {at} did not write {LIBRARY} ({status})")),
        Err(error) => fail(&format!(
            "{LIBRARY} is neither in {} nor in a folder that JUOPMORIN_LIBS names, and '{COMMAND}', which builds it, \
             does not start ({error}): with the Rattle kit on the PATH run it in {at}",
            folder.display()
        )),
    }
}
