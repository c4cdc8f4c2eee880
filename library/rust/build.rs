//! Links libcuvragyen: from the folder CUVRAGYEN_LIB, or from those that the linker knows.

fn main() {
    println!("cargo:rerun-if-env-changed=CUVRAGYEN_LIB");
    if let Ok(folder) = std::env::var("CUVRAGYEN_LIB") {
        println!("cargo:rustc-link-search=native={folder}");
    }
    println!("cargo:rustc-link-lib=static=cuvragyen");
}
