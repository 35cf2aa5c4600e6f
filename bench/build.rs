// With the feature `product`: where the product's static library lies, and the C part of the toolchain's that it is linked with.
use std::env;
use std::path::Path;
use std::process::Command;

/// The folder of the toolchain's C libraries, beside the page that `rt doc` names.
fn toolchain() -> String {
    let page = Command::new("rt").arg("doc").output().expect("rt is on the PATH").stdout;
    let page = String::from_utf8(page).expect("a path");
    let kit = Path::new(page.trim()).parent().expect("the page lies in the toolchain's folder");
    format!("{}/c", kit.display())
}

fn main() {
    println!("cargo:rerun-if-env-changed=PRODUCT_LIB_DIR");
    println!("cargo:rerun-if-env-changed=PRODUCT_LIB");
    if env::var_os("CARGO_FEATURE_PRODUCT").is_none() {
        return;
    }
    let root = env::var("CARGO_MANIFEST_DIR").unwrap();
    let dir = env::var("PRODUCT_LIB_DIR").unwrap_or(format!("{root}/../crates/runner/out"));
    let name = env::var("PRODUCT_LIB").unwrap_or("runner".to_string());
    println!("cargo:rerun-if-changed={dir}/lib{name}.a");
    println!("cargo:rustc-link-search=native={dir}");
    println!("cargo:rustc-link-lib=static={name}");
    println!("cargo:rustc-link-search=native={}", toolchain());
    println!("cargo:rustc-link-lib=static=os_c");
    println!("cargo:rustc-link-lib=static=libc_c");
}
