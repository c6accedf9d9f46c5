// Links the archive that `tools/archive` makes.
fn main() {
    let here = std::env::var("CARGO_MANIFEST_DIR").unwrap();
    println!("cargo:rustc-link-search=native={here}/../target/staticlib");
    println!("cargo:rustc-link-lib=static=capi");
    println!("cargo:rerun-if-changed={here}/../target/staticlib/libcapi.a");
}
