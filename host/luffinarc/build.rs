//! Links the static library that `host/library` makes, or the one in the folder `LUFFINARC_LIB_DIR`.

use std::env;
use std::path::PathBuf;
use std::process::exit;

const VARIABLE: &str = "LUFFINARC_LIB_DIR";

/// The folder that `host/library` writes to, two above this crate's.
fn usual_folder() -> PathBuf {
    let here = PathBuf::from(env::var_os("CARGO_MANIFEST_DIR").unwrap_or_default());
    here.ancestors().nth(2).unwrap_or(&here).join("target/staticlib")
}

/// The folder that holds the library. An empty variable is as one that is not set. A build script isn't told which
/// folder cargo was started in, so it can't take a relative path as its user means it.
fn folder() -> Result<PathBuf, String> {
    let given = env::var_os(VARIABLE).filter(|value| !value.is_empty()).map(PathBuf::from);
    let folder = given.unwrap_or_else(usual_folder);
    let shown = folder.display();
    if folder.is_relative() {
        Err(format!("{VARIABLE}={shown}: an absolute path is needed"))
    } else if folder.to_str().is_none() {
        Err(format!("{VARIABLE}={shown}: a path in UTF-8 is needed"))
    } else {
        Ok(folder)
    }
}

/// The lines that tell cargo what to link, or why there is nothing to.
fn lines() -> Result<String, String> {
    let folder = folder()?;
    let library = folder.join("libluffinarc.a");
    let (library_name, folder_name) = (library.display(), folder.display());
    if !library.is_file() {
        let ways = format!("`host/library` makes it, or set {VARIABLE} to its folder");
        return Err(format!("{library_name}: not there; {ways}"));
    }
    Ok(format!(
        "cargo:rerun-if-env-changed={VARIABLE}\n\
         cargo:rerun-if-changed={library_name}\n\
         cargo:rustc-link-search=native={folder_name}\n\
         cargo:rustc-link-lib=static=luffinarc"
    ))
}

fn main() {
    match lines() {
        Ok(lines) => println!("{lines}"),
        Err(why) => {
            eprintln!("{why}");
            exit(1);
        }
    }
}
