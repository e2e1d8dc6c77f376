// Links the proved library, which `rt lib` in crates/controller wrote.
fn main() {
    let root = std::env::var("CARGO_MANIFEST_DIR").unwrap();
    println!("cargo:rustc-link-search=native={root}/../../crates/controller/out");
    println!("cargo:rustc-link-lib=static=controller");
    println!("cargo:rerun-if-changed=../../crates/controller/out/libcontroller.a");
}
