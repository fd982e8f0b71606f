//! Links the proved library's archive: `target/staticlib/libleverbonnet.a` of
//! the workspace, or the one in LEVERBONNET_LIB_DIR. The archive is for x86-64;
//! for another processor, or with the feature `piped`, nothing is linked.

use std::env;
use std::path::{Path, PathBuf};
use std::process::ExitCode;

const ARCHIVE: &str = "libleverbonnet.a";
const OVERRIDE: &str = "LEVERBONNET_LIB_DIR";
const PROCESSOR: &str = "x86_64";

fn main() -> ExitCode {
    println!("cargo:rerun-if-env-changed={OVERRIDE}");
    let processor = env::var("CARGO_CFG_TARGET_ARCH").expect("cargo names the processor");
    let piped = env::var_os("CARGO_FEATURE_PIPED").is_some();
    if processor != PROCESSOR || piped {
        println!("cargo:rerun-if-changed=build.rs");
        return ExitCode::SUCCESS;
    }
    linked()
}

fn linked() -> ExitCode {
    let folder = archive_folder();
    let archive = folder.join(ARCHIVE);
    println!("cargo:rerun-if-changed={}", archive.display());
    if !archive.is_file() {
        eprintln!(
            "The proved library is not built: run `scripts/library` to make {}.",
            archive.display()
        );
        return ExitCode::FAILURE;
    }
    println!("cargo:rustc-link-search=native={}", folder.display());
    println!("cargo:rustc-link-lib=static=leverbonnet");
    ExitCode::SUCCESS
}

fn archive_folder() -> PathBuf {
    match env::var_os(OVERRIDE) {
        Some(folder) => PathBuf::from(folder),
        None => {
            let package = Path::new(env!("CARGO_MANIFEST_DIR"));
            let workspace = package.parent().expect("the package lies in its workspace");
            workspace.join("target/staticlib")
        }
    }
}
