// Links the static library of crate `capi`, which `tests/run` builds first.
fn main() {
    let root = std::env::var("CARGO_MANIFEST_DIR").unwrap();
    let library = std::env::var("HEVOLATSY_LIB").unwrap_or(format!("{root}/../target/staticlib"));
    println!("cargo:rerun-if-env-changed=HEVOLATSY_LIB");
    println!("cargo:rerun-if-changed={library}/libcapi.a");
    println!("cargo:rustc-link-search=native={library}");
    println!("cargo:rustc-link-lib=static=capi");
}
