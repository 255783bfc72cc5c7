//! Links the static library of the proved core. It is looked for
//!
//! 1. in the folder that `VIHROLOM_LIB_DIR` names, as `tools/build-library` writes it: `libcapi.a`;
//! 2. below the folder that `VIHROLOM_PREFIX` names, as `tools/install` puts it: `lib/libvihrolom.a`;
//! 3. in the repository that this crate stands in, as `tools/build-library` writes it;
//! 4. where `pkg-config` says that it is installed.

use std::env;
use std::path::PathBuf;
use std::process::Command;

/// The library as `tools/build-library` writes it.
const BUILT: &str = "capi";

/// The library as `tools/install` puts it.
const INSTALLED: &str = "vihrolom";

/// Where `tools/build-library` puts the library, seen from this crate.
const REPOSITORY: &str = "../../target/staticlib";

/// A static library: its folder and its name.
struct Library {
    folder: PathBuf,
    name: &'static str,
}

impl Library {
    fn file(&self) -> PathBuf {
        self.folder.join(format!("lib{}.a", self.name))
    }

    /// The library, or one line that says what is missing.
    fn present(self, advice: &str) -> Result<Library, String> {
        let file = self.file();
        if file.is_file() {
            Ok(self)
        } else {
            Err(format!("no file {}: {advice}", file.display()))
        }
    }
}

/// The folder of the installed library, if `pkg-config` is there and knows one.
fn pkg_config() -> Option<PathBuf> {
    let told = Command::new("pkg-config")
        .args(["--variable=libdir", "vihrolom"])
        .output()
        .ok()?;
    let folder = String::from_utf8(told.stdout).ok()?;
    let folder = folder.trim_end();
    (told.status.success() && !folder.is_empty()).then(|| folder.into())
}

/// The library in the folder that the variable names, seen from this crate; `None` if it isn't set.
fn named(variable: &str, below: &str, name: &'static str) -> Option<Result<Library, String>> {
    println!("cargo::rerun-if-env-changed={variable}");
    let folder = manifest().join(env::var_os(variable)?).join(below);
    Some(Library { folder, name }.present(&format!("see {variable}")))
}

fn manifest() -> PathBuf {
    env::var_os("CARGO_MANIFEST_DIR").unwrap_or_default().into()
}

fn found() -> Result<Library, String> {
    println!("cargo::rerun-if-env-changed=PKG_CONFIG_PATH");
    let set = named("VIHROLOM_LIB_DIR", "", BUILT);
    if let Some(library) = set.or_else(|| named("VIHROLOM_PREFIX", "lib", INSTALLED)) {
        return library;
    }
    let advice = "run tools/build-library, or name the folder of tools/install in VIHROLOM_PREFIX";
    let repository = Library {
        folder: manifest().join(REPOSITORY),
        name: BUILT,
    };
    match repository.present(advice) {
        Ok(library) => Ok(library),
        Err(line) => {
            let folder = pkg_config().ok_or(line)?;
            let name = INSTALLED;
            Library { folder, name }.present(advice)
        }
    }
}

fn main() {
    println!("cargo::rerun-if-changed=build.rs");
    match found() {
        Err(line) => println!("cargo::error={line}"),
        Ok(library) => {
            println!("cargo::rerun-if-changed={}", library.file().display());
            println!(
                "cargo::rustc-link-search=native={}",
                library.folder.display()
            );
            println!("cargo::rustc-link-lib=static={}", library.name);
        }
    }
}
