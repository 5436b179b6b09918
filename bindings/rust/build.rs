//! Links the library, found in the folder that the environment variable
//! SLOPEBOARD_LIB_DIR names. A relative name is sought from this package's
//! folder, then from each folder above it: so it may be given from the top of
//! the workspace.

use std::env;
use std::path::{Path, PathBuf};
use std::process::ExitCode;

const VARIABLE: &str = "SLOPEBOARD_LIB_DIR";
const LIBRARY: &str = "libslopeboard.a";

/// The folder of the library, or what is wrong with the name given.
fn folder() -> Result<PathBuf, String> {
    let Some(named) = env::var_os(VARIABLE).filter(|name| !name.is_empty()) else {
        return Err(format!(
            "{VARIABLE} is not set; it names the folder of {LIBRARY}"
        ));
    };
    let package = env::var_os("CARGO_MANIFEST_DIR").unwrap_or_default();
    // Joined to any folder, an absolute name stays as it is.
    let mut folders = Path::new(&package)
        .ancestors()
        .map(|above| above.join(&named));
    folders.find(|folder| folder.join(LIBRARY).is_file()).ok_or_else(|| {
        let (named, package) = (Path::new(&named).display(), Path::new(&package).display());
        format!("no {LIBRARY} in {named}, which {VARIABLE} names; a relative name is sought from {package} and from each folder above it")
    })
}

fn main() -> ExitCode {
    println!("cargo:rerun-if-env-changed={VARIABLE}");
    match folder() {
        Ok(folder) => {
            let library = folder.join(LIBRARY);
            println!("cargo:rerun-if-changed={}", library.display());
            println!("cargo:rustc-link-search=native={}", folder.display());
            println!("cargo:rustc-link-lib=static=slopeboard");
            ExitCode::SUCCESS
        }
        Err(fault) => {
            eprintln!("{fault}");
            ExitCode::FAILURE
        }
    }
}
