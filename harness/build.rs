// Links the codec's static library, which `./build` leaves in target/staticlib. ZUKHTAVO_LIB names another folder for it.
use std::env;
use std::path::{Path, PathBuf};

fn main() {
    let library =
        env::var("ZUKHTAVO_LIB").map_or_else(|_| beside("../target/staticlib"), PathBuf::from);
    println!("cargo:rerun-if-env-changed=ZUKHTAVO_LIB");
    println!(
        "cargo:rerun-if-changed={}",
        library.join("libcamera.a").display()
    );
    println!("cargo:rustc-link-search=native={}", library.display());
    println!("cargo:rustc-link-lib=static=camera");
}

fn beside(path: &str) -> PathBuf {
    Path::new(&env::var("CARGO_MANIFEST_DIR").expect("cargo sets CARGO_MANIFEST_DIR")).join(path)
}
