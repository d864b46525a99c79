// The libraries are built by `./libraries`, one for each of these names, beside this crate or where TIRLWHEEL_LIB says.
const LIBRARIES: [&str; 9] = [
    "edge", "chip", "cardedge", "cardchip", "keptedge", "keptchip", "printout", "evprint", "desk",
];

fn main() {
    let beside = concat!(env!("CARGO_MANIFEST_DIR"), "/../target/staticlib");
    let lib = std::env::var("TIRLWHEEL_LIB").unwrap_or_else(|_| beside.into());
    println!("cargo:rerun-if-env-changed=TIRLWHEEL_LIB");
    println!("cargo:rustc-link-search=native={lib}");
    for name in LIBRARIES {
        println!("cargo:rerun-if-changed={lib}/lib{name}.a");
        println!("cargo:rustc-link-lib=static={name}");
    }
}
