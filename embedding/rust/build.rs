//! Links libmusseltwig.a: from the folder in MUSSELTWIG_LIB, or where embedding/archive.sh puts it.
fn main() {
    let made = concat!(env!("CARGO_MANIFEST_DIR"), "/../../target/embedding");
    let folder = std::env::var("MUSSELTWIG_LIB").unwrap_or_else(|_| made.to_string());
    if !std::path::Path::new(&folder).join("libmusseltwig.a").exists() {
        panic!("{folder} has no libmusseltwig.a: run embedding/archive.sh");
    }
    println!("cargo:rerun-if-env-changed=MUSSELTWIG_LIB");
    println!("cargo:rerun-if-changed={folder}/libmusseltwig.a");
    println!("cargo:rustc-link-search=native={folder}");
    println!("cargo:rustc-link-lib=static=musseltwig");
}
