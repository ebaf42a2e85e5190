// Links libnil.a of the prefix that the crate is installed in, or of NIL_LIB where that is set.
use std::env;
use std::path::PathBuf;

fn main() {
    let here = PathBuf::from(env::var("CARGO_MANIFEST_DIR").unwrap());
    let lib = match env::var("NIL_LIB") {
        Ok(folder) => PathBuf::from(folder),
        Err(_) => here.join("../../../lib"),
    };
    println!("cargo:rerun-if-env-changed=NIL_LIB");
    println!("cargo:rustc-link-search=native={}", lib.display());
    println!("cargo:rustc-link-lib=static=nil");
}
