//! Says where the engine's archive is.

use std::env;
use std::path::{Path, PathBuf};

const NAME: &str = "libcapi.a";

fn main() {
    println!("cargo::rerun-if-env-changed=KNIT_ARCHIVE");
    // An error line fails the build and is all that cargo then shows; an exit status of our own would add more.
    if let Err(why) = find_archive().and_then(|archive| link(&archive)) {
        println!("cargo::error={why}");
    }
}

fn find_archive() -> Result<PathBuf, &'static str> {
    let folder = env::var_os("KNIT_ARCHIVE")
        .ok_or("KNIT_ARCHIVE is not set; it must name the folder that holds libcapi.a")?;
    // A build script runs in its package's folder, wherever cargo was called, so that a relative path would mean another folder
    // than its writer thought of.
    if !Path::new(&folder).is_absolute() {
        return Err("KNIT_ARCHIVE must name its folder by an absolute path");
    }
    let archive = Path::new(&folder).join(NAME).canonicalize();
    archive.map_err(|_| "the folder that KNIT_ARCHIVE names holds no libcapi.a")
}

fn link(archive: &Path) -> Result<(), &'static str> {
    let folder = archive.parent().and_then(Path::to_str);
    let (Some(path), Some(folder)) = (archive.to_str(), folder) else {
        return Err("the folder that KNIT_ARCHIVE names has a name that is no text");
    };
    // Cargo goes by times: an archive with an older time than the last build is linked only after `touch`.
    println!("cargo::rerun-if-changed={path}");
    println!("cargo::rustc-link-search=native={folder}");
    println!("cargo::rustc-link-lib=static=capi");
    Ok(())
}
