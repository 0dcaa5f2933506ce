//! Says where our engine's archive is.

use std::env;
use std::path::Path;
use std::process::exit;

const NAME: &str = "libcapi.a";

fn main() {
    println!("cargo::rerun-if-env-changed=KNIT_ARCHIVE");
    let Some(folder) = env::var_os("KNIT_ARCHIVE") else {
        stop("KNIT_ARCHIVE is not set; it must name the folder that holds libcapi.a");
    };
    // A build script runs in its own folder, not where cargo was called.
    if !Path::new(&folder).is_absolute() {
        stop("KNIT_ARCHIVE must name its folder by an absolute path");
    }
    let Ok(archive) = Path::new(&folder).join(NAME).canonicalize() else {
        stop("the folder that KNIT_ARCHIVE names holds no libcapi.a");
    };
    let (Some(path), Some(folder)) = (archive.to_str(), archive.parent().and_then(Path::to_str))
    else {
        stop("the folder that KNIT_ARCHIVE names has a name that is no text");
    };
    println!("cargo::rerun-if-changed={path}");
    // Cargo goes by times alone and would miss an archive that was put back
    // with an older one. A file that is never there makes it link anew each
    // time, which takes a second; comparing the wrong engine takes longer.
    println!("cargo::rerun-if-changed={path}.never-there");
    println!("cargo::rustc-link-search=native={folder}");
    println!("cargo::rustc-link-lib=static=capi");
}

fn stop(why: &str) -> ! {
    println!("cargo::error={why}");
    exit(1)
}
