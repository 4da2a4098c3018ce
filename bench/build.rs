// The archive that `rt lib` makes of the crate `hawkrusset`.
fn main() {
    let dir = std::env::var("CARGO_MANIFEST_DIR").unwrap();
    let archive = format!("{dir}/../crates/hawkrusset/out");
    println!("cargo:rustc-link-search=native={archive}");
    println!("cargo:rustc-link-lib=static=hawkrusset");
    println!("cargo:rerun-if-changed={archive}/libhawkrusset.a");
}
