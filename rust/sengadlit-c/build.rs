//! Gives the shared library its soname. Its number follows the rule in README.md, and so does `abi/`.

const SONAME: &str = "libsengadlit.so.0";

fn main() {
    println!("cargo::rerun-if-changed=build.rs");
    println!("cargo::rustc-cdylib-link-arg=-Wl,-soname,{SONAME}");
}
