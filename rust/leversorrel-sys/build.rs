//! Finds `libthp.a` and links it. README.md has the order of search.
use std::env;
use std::ffi::OsString;
use std::path::{Path, PathBuf};
use std::process::{exit, Command};

/// The archive.
const ARCHIVE: &str = "libthp.a";

/// The folders beside this one that have it: in a release, and in a checkout after `make -C c archive all`.
const BESIDE: [&str; 2] = ["../../lib", "../../c/out"];

fn main() {
    for name in ["THP_LIB", "PKG_CONFIG", "PKG_CONFIG_PATH", "PKG_CONFIG_LIBDIR"] {
        println!("cargo:rerun-if-env-changed={name}");
    }
    println!("cargo:rerun-if-changed=build.rs");
    // documents are built without the library, as on docs.rs
    if env::var_os("DOCS_RS").is_some() {
        return;
    }
    match find() {
        Ok(folder) => {
            println!("cargo:rerun-if-changed={}", folder.join(ARCHIVE).display());
            println!("cargo:rustc-link-search=native={}", folder.display());
            println!("cargo:rustc-link-lib=static=thp");
        }
        Err(why) => {
            eprintln!("leversorrel-sys: {why}");
            exit(1);
        }
    }
}

/// Returns the folder that has the archive, or why there is none.
fn find() -> Result<PathBuf, String> {
    if let Some(named) = env::var_os("THP_LIB").filter(|it| !it.is_empty()).map(PathBuf::from) {
        // a build script runs in the crate's folder, which isn't that of the user
        return match named.is_absolute() {
            false => Err(format!("THP_LIB must be an absolute path: {}", named.display())),
            true if has_archive(&named) => Ok(named),
            true => Err(format!("{ARCHIVE} isn't in {}, the folder that THP_LIB names", named.display())),
        };
    }
    let own = PathBuf::from(env::var_os("CARGO_MANIFEST_DIR").expect("cargo sets it"));
    if let Some(beside) = BESIDE.map(|folder| own.join(folder)).into_iter().find(|folder| has_archive(folder)) {
        return Ok(beside);
    }
    by_pkg_config().map_err(|why| {
        format!(
            "no {ARCHIVE} of version {} ({why}): install libthp-dev, build it by `make -C c archive all` in the repository, \
             or set THP_LIB to the absolute path of the folder that has it",
            env!("CARGO_PKG_VERSION")
        )
    })
}

fn has_archive(folder: &Path) -> bool {
    folder.join(ARCHIVE).is_file()
}

/// Returns the folder that pkg-config names for the version of this crate or a compatible one, or why there is none.
fn by_pkg_config() -> Result<PathBuf, String> {
    let named = env::var_os("PKG_CONFIG");
    if named.is_none() && env::var_os("HOST") != env::var_os("TARGET") {
        return Err("PKG_CONFIG names no pkg-config for the target".into());
    }
    let (major, minor) = (env!("CARGO_PKG_VERSION_MAJOR"), env!("CARGO_PKG_VERSION_MINOR"));
    let above = minor.parse::<u32>().expect("cargo sets it") + 1;
    let wanted = format!("thp >= {}, thp < {major}.{above}", env!("CARGO_PKG_VERSION"));
    let command = named.unwrap_or_else(|| OsString::from("pkg-config"));
    let done = Command::new(&command)
        .args(["--static", "--libs", "--print-errors", &wanted])
        // it leaves out the folders of the system without this
        .env("PKG_CONFIG_ALLOW_SYSTEM_LIBS", "1")
        .output()
        .map_err(|error| format!("{}: {error}", Path::new(&command).display()))?;
    if !done.status.success() {
        let said = String::from_utf8_lossy(&done.stderr).into_owned();
        return Err(format!("pkg-config: {}", said.lines().next().unwrap_or("no package thp")));
    }
    let libs = String::from_utf8_lossy(&done.stdout).into_owned();
    let mut folders = libs.split_whitespace().filter_map(|word| word.strip_prefix("-L")).map(PathBuf::from);
    folders.find(|folder| has_archive(folder)).ok_or(format!("pkg-config: no {ARCHIVE} in the folders of {}", libs.trim()))
}
