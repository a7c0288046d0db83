//! Says where libhatsuvren_c.a is: in the folder that HATSUVREN_LIB names, absolute or seen from this package, else where
//! `rt lib` writes it in crates/hatsuvren_c.

use std::env;
use std::path::Path;

fn main() {
    let package = env::var_os("CARGO_MANIFEST_DIR").expect("cargo names the package's folder");
    let folder =
        env::var_os("HATSUVREN_LIB").unwrap_or_else(|| "../../crates/hatsuvren_c/out".into());
    let folder = Path::new(&package).join(folder);
    println!("cargo:rustc-link-search=native={}", folder.display());
    println!("cargo:rerun-if-env-changed=HATSUVREN_LIB");
    let library = folder.join("libhatsuvren_c.a");
    println!("cargo:rerun-if-changed={}", library.display());
    let target = env::var("TARGET").unwrap_or_default();
    if !target.starts_with("x86_64-") || !target.contains("linux") {
        println!("cargo:warning=libhatsuvren_c.a is for x86-64 Linux: for {target} this is checked, but does not link");
    }
}
