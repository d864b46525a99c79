//! Links the proved libraries. TIRLWHEEL_LIB names their folder where the bench is built from a copy.
fn main() {
    let beside = concat!(env!("CARGO_MANIFEST_DIR"), "/../target/staticlib");
    let folder = std::env::var("TIRLWHEEL_LIB").unwrap_or_else(|_| beside.to_string());
    println!("cargo:rerun-if-env-changed=TIRLWHEEL_LIB");
    println!("cargo:rustc-link-search=native={folder}");
    for library in ["edge", "chip", "cardedge", "cardchip", "keptedge", "keptchip", "printout", "evprint", "desk"] {
        println!("cargo:rerun-if-changed={folder}/lib{library}.a");
        println!("cargo:rustc-link-lib=static={library}");
    }
}
