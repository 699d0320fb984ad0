//! Finds `libtopichub` and links it. If `TOPICHUB_LIB_DIR` is set, it names the folder. Otherwise
//! the library is taken from the first of these folders that has it:
//!
//! - `native` next to this file, where the released crate has it;
//! - the folder that `pkg-config` reports;
//! - `../c/build`, where `make -C lib/c` in the repository puts the proved one;
//! - `../c/build/fast`, where `make -C lib/c fast` puts one that is not proved.
//!
//! If none is found, this script still succeeds, since `cargo check`, `clippy` and `doc` need no
//! library. It then asks for a library whose name is the error message, which rustc prints when it
//! cannot link it. A warning would be shown only to users with a path dependency.
//!
//! Cargo reruns this script when a watched path has changed. A missing path counts as changed every
//! time, which would recompile everything that depends on this crate. So if a library does not
//! exist yet, an existing folder above it is watched instead.
use std::env;
use std::path::{Path, PathBuf};
use std::process::Command;

const NAME: &str = "topichub";
const HOW: &str =
    ", which make -C lib/c fast builds in a clone (docs/INSTALL.md lists the other ways)";
const VARIABLES: [&str; 4] = [
    "TOPICHUB_LIB_DIR",
    "PKG_CONFIG",
    "PKG_CONFIG_PATH",
    "PKG_CONFIG_LIBDIR",
];

/// How a library is linked, and its file.
type Library = (&'static str, PathBuf);

fn watch(path: &Path) {
    println!("cargo:rerun-if-changed={}", path.display());
}

/// Watches the folder or, if it is missing, the nearest existing one above it, but none above
/// `top`.
fn watch_folder(folder: &Path, top: &Path) {
    let mut above = folder.ancestors().take_while(|it| it.starts_with(top));
    if let Some(there) = above.find(|it| it.is_dir()) {
        watch(there);
    }
}

/// The library in this folder: the static one if there is one, else the shared one.
fn library_in(folder: &Path) -> Option<Library> {
    [("static", "a"), ("dylib", "so")]
        .into_iter()
        .map(|(kind, ending)| (kind, folder.join(format!("lib{NAME}.{ending}"))))
        .find(|(_, file)| file.is_file())
}

/// The library in this folder. It is watched; if there is none yet, the folder is.
fn look(folder: &Path, top: &Path) -> Option<Library> {
    let found = library_in(folder);
    match &found {
        Some((_, file)) => watch(file),
        None => watch_folder(folder, top),
    }
    found
}

/// The library in the named folder. A relative name is looked up in the folder in which Cargo was
/// started, and then in this crate's own. While neither has a library, this script runs every time.
/// While only the second has one, a folder that is created later in the first is not noticed.
fn named(folder: &Path, here: &Path) -> Option<Library> {
    if folder.is_relative() {
        println!("cargo:rerun-if-env-changed=PWD");
    }
    let called = env::var_os("PWD").map(|it| Path::new(&it).join(folder));
    let found = called.and_then(|it| look(&it, &it));
    found.or_else(|| {
        let own = here.join(folder);
        let found = library_in(&own);
        watch(found.as_ref().map_or(&own.join(NAME), |(_, file)| file));
        found
    })
}

/// A variable of a package, as `pkg-config` reports it.
fn told(variable: &str, package: &str) -> Option<String> {
    let program = env::var_os("PKG_CONFIG").unwrap_or_else(|| "pkg-config".into());
    let asked = Command::new(program)
        .args([&format!("--variable={variable}"), package])
        .output()
        .ok()?;
    let text = String::from_utf8(asked.stdout).ok()?;
    (asked.status.success() && !text.trim().is_empty()).then(|| text.trim().to_string())
}

/// The library that `pkg-config` finds. Its search path is watched too: the first `make install` on
/// a machine may create such a folder in `/usr/local`.
fn installed() -> Option<Library> {
    let own = || told("pc_path", "pkg-config").map(Into::into);
    let paths = [
        env::var_os("PKG_CONFIG_PATH"),
        env::var_os("PKG_CONFIG_LIBDIR").or_else(own),
    ];
    for folder in paths.iter().flatten().flat_map(env::split_paths) {
        let is_local = folder.starts_with("/usr/local");
        let above = folder.parent().filter(|_| is_local);
        watch_folder(&folder, above.unwrap_or(&folder));
    }
    let found = library_in(Path::new(&told("libdir", NAME)?))?;
    watch(&found.1);
    Some(found)
}

/// The library that was built in the repository, if this crate is in it.
fn built(c: &Path) -> Option<Library> {
    if !c.join("topichub.h").is_file() {
        return None;
    }
    ["build", "build/fast"]
        .iter()
        .find_map(|it| look(&c.join(it), c))
}

/// Asks for a library that does not exist, whose name is the message. A colon would end the name.
fn miss(what: &str) {
    let what = what.replace([':', '\n'], " ");
    println!("cargo:rustc-link-lib=static={NAME}{what}");
}

fn main() {
    for variable in VARIABLES {
        println!("cargo:rerun-if-env-changed={variable}");
    }
    watch(Path::new("build.rs"));
    let here = PathBuf::from(env::var_os("CARGO_MANIFEST_DIR").unwrap_or_default());
    let own = here.join("native");
    let name = env::var_os(VARIABLES[0]).filter(|it| !it.is_empty());
    let found = match &name {
        Some(folder) => named(Path::new(folder), &here),
        None => look(&own, &own)
            .or_else(installed)
            .or_else(|| built(&here.with_file_name("c"))),
    };
    match (found, name) {
        (Some((kind, file)), _) => {
            let folder = file.parent().unwrap_or(&file).display();
            println!("cargo:rustc-link-search=native={folder}");
            println!("cargo:rustc-link-lib={kind}={NAME}");
        }
        (None, Some(folder)) => {
            let folder = Path::new(&folder).display();
            miss(&format!(" in {folder}, which TOPICHUB_LIB_DIR names"));
        }
        (None, None) => miss(HOW),
    }
}
