//! Links the static library of the proved resolver: libvaibmusan.a in VAIBMUSAN_LIB_DIR, or else in target/staticlib of the nearest folder
//! above that has it there: this repository. Where it is not there a warning says how to make it: `cargo check` and `cargo doc` do without,
//! and what links stops at rustc.
use std::env;
use std::path::{Path, PathBuf};

const LIBRARY: &str = "libvaibmusan.a";

/// The folder to link from.
fn folder(here: &Path) -> PathBuf {
    if let Some(named) = env::var_os("VAIBMUSAN_LIB_DIR") {
        return here.join(named);
    }
    let above = here.ancestors().map(|f| f.join("target/staticlib")).find(|f| f.join(LIBRARY).is_file());
    above.unwrap_or_else(|| here.join("../../target/staticlib"))
}

fn main() {
    println!("cargo:rerun-if-env-changed=VAIBMUSAN_LIB_DIR");
    let folder = folder(Path::new(env!("CARGO_MANIFEST_DIR")));
    let library = folder.join(LIBRARY);
    println!("cargo:rerun-if-changed={}", library.display());
    println!("cargo:rustc-link-search=native={}", folder.display());
    println!("cargo:rustc-link-lib=static=vaibmusan");
    if !library.is_file() {
        println!(
            "cargo:warning=there is no {}. Make it with `tools/staticlib` in the repository's folder, or set VAIBMUSAN_LIB_DIR to the folder that has it",
            library.display()
        );
    }
    let system = (env::var("CARGO_CFG_TARGET_ARCH").unwrap_or_default(), env::var("CARGO_CFG_TARGET_OS").unwrap_or_default());
    if !matches!((system.0.as_str(), system.1.as_str()), ("x86_64" | "aarch64", "linux")) {
        println!("cargo:warning=the proved library is made for Linux on x86-64 and Arm, not for {} {}", system.0, system.1);
    }
}
