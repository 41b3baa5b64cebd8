//! Links the static library of the heap, `libzelamiku.a` of `tools/c-library`: `ZELAMIKU_LIBS` names its folder. Without the variable
//! pkg-config finds it.
use std::path::PathBuf;
use std::process::Command;

// The folder in which the library is installed.
fn installed() -> Option<PathBuf> {
    let found = Command::new("pkg-config").args(["--variable=libdir", "zelamiku"]).output().ok()?;
    let folder = PathBuf::from(String::from_utf8(found.stdout).ok()?.trim());
    (found.status.success() && folder.is_dir()).then_some(folder)
}

fn main() {
    println!("cargo:rerun-if-env-changed=ZELAMIKU_LIBS");
    println!("cargo:rerun-if-env-changed=PKG_CONFIG_PATH");
    println!("cargo:rustc-link-lib=static=zelamiku");
    let Some(folder) = std::env::var_os("ZELAMIKU_LIBS").map(PathBuf::from).or_else(installed) else {
        println!("cargo:warning=set ZELAMIKU_LIBS to the folder with libzelamiku.a: lib of an installed library, or crates/zelamiku/out/host after tools/c-library");
        return;
    };
    let library = folder.join("libzelamiku.a");
    println!("cargo:rerun-if-changed={}", library.display());
    if !library.exists() {
        println!("cargo:warning=ZELAMIKU_LIBS: there is no {}", library.display());
    }
    println!("cargo:rustc-link-search=native={}", folder.display());
}
