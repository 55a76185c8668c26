//! Names the proved library's archive to the linker. MUNDEZIWA_LIB_DIR is the directory that holds libmundeziwa.a.

fn main() {
    println!("cargo:rerun-if-env-changed=MUNDEZIWA_LIB_DIR");
    let directory = std::env::var("MUNDEZIWA_LIB_DIR").expect("MUNDEZIWA_LIB_DIR names the directory of libmundeziwa.a");
    println!("cargo:rerun-if-changed={directory}/libmundeziwa.a");
    println!("cargo:rustc-link-search=native={directory}");
    println!("cargo:rustc-link-lib=static=mundeziwa");
}
