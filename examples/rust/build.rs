// Links the static library libshader_check.a of the folder that SHADER_CHECK_LIB_DIR names, as a release or `./build-unproved --lib`
// makes it; where there is no such variable, that of this repository.
use std::{env, path::Path};

fn main() {
    println!("cargo:rerun-if-env-changed=SHADER_CHECK_LIB_DIR");
    let folder = env::var("SHADER_CHECK_LIB_DIR")
        .unwrap_or_else(|_| format!("{}/../../crates/shader_check_c/out", env!("CARGO_MANIFEST_DIR")));
    let library = Path::new(&folder).join("libshader_check.a");
    assert!(
        library.is_file(),
        "{} is not there: set SHADER_CHECK_LIB_DIR to the folder of libshader_check.a, or make it by ./build-unproved --lib",
        library.display()
    );
    println!("cargo:rerun-if-changed={}", library.display());
    println!("cargo:rustc-link-search=native={folder}");
    println!("cargo:rustc-link-lib=static=shader_check");
}
