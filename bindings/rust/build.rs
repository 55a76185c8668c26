//! Links libmundeziwa.a, which `make lib` leaves in build/lib of the repository. MUNDEZIWA_LIB_DIR names another folder,
//! from this one on if it is no full path.
use std::env;
use std::path::PathBuf;
use std::process::exit;

fn main() {
    println!("cargo:rerun-if-env-changed=MUNDEZIWA_LIB_DIR");
    let folder = match env::var_os("MUNDEZIWA_LIB_DIR") {
        Some(named) => PathBuf::from(named),
        None => {
            PathBuf::from(env::var_os("CARGO_MANIFEST_DIR").expect("cargo names the package's folder")).join("../../build/lib")
        }
    };
    let archive = folder.join("libmundeziwa.a");
    if !archive.is_file() {
        eprintln!(
            "{} is not there: run `make lib` in the repository, or name its folder with MUNDEZIWA_LIB_DIR",
            archive.display()
        );
        exit(1);
    }
    println!("cargo:rerun-if-changed={}", archive.display());
    println!("cargo:rustc-link-search=native={}", folder.display());
    println!("cargo:rustc-link-lib=static=mundeziwa");
}
