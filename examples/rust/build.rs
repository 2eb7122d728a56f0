//! Links the proved library.

use std::path::{Path, PathBuf};
use std::{env, process};

/// The names of the archives in a folder: one in a package; two where a clone of the repository builds them.
const ARCHIVES: [&[&str]; 2] = [&["graphql_proved"], &["graphql_c", "libc_c"]];

/// The variable that names a folder with the archives. No other folder is searched then.
const VARIABLE: &str = "GRAPHQL_PROVED_LIBRARIES";

/// The folders in which the archives can be, relative to this file: that of a package, and that of a clone.
const FOLDERS: [&str; 2] = ["native", "../../crates/graphql_c/out"];

fn stop(message: &str) -> ! {
    eprintln!("graphql_proved: {message}");
    process::exit(1)
}

/// The folders to search.
fn folders() -> Vec<PathBuf> {
    let here = env::var_os("CARGO_MANIFEST_DIR").map_or_else(PathBuf::new, PathBuf::from);
    match env::var_os(VARIABLE) {
        Some(folder) => vec![here.join(folder)],
        None => FOLDERS.iter().map(|folder| here.join(folder)).collect(),
    }
}

fn file(folder: &Path, name: &str) -> PathBuf {
    folder.join(format!("lib{name}.a"))
}

/// The archives of a folder, if it has them.
fn archives_in(folder: &Path) -> Option<&'static [&'static str]> {
    ARCHIVES.into_iter().find(|names| names.iter().all(|name| file(folder, name).is_file()))
}

fn main() {
    println!("cargo:rerun-if-env-changed={VARIABLE}");
    let of_target = |name| env::var(name).unwrap_or_default();
    if of_target("CARGO_CFG_TARGET_OS") != "linux" || of_target("CARGO_CFG_TARGET_ARCH") != "x86_64" {
        stop(&format!("the library is built only for x86-64 Linux, and not for {}", of_target("TARGET")));
    }
    let folders = folders();
    let Some((folder, names)) = folders.iter().find_map(|folder| Some((folder, archives_in(folder)?))) else {
        let searched: Vec<_> = folders.iter().map(|folder| folder.display().to_string()).collect();
        let searched = searched.join(" or ");
        stop(&format!("there is no libgraphql_proved.a, and no libgraphql_c.a with liblibc_c.a, in {searched}"));
    };
    println!("cargo:rustc-link-search=native={}", folder.display());
    for name in names {
        println!("cargo:rerun-if-changed={}", file(folder, name).display());
        println!("cargo:rustc-link-lib=static={name}");
    }
}
