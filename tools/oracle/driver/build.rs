//! Links the doors of the proved functions: libdoors of the folder JOHKKESIR_DOORS, static unless JOHKKESIR_DOORS_KIND says dylib.
fn main() {
    println!("cargo:rerun-if-env-changed=JOHKKESIR_DOORS");
    println!("cargo:rerun-if-env-changed=JOHKKESIR_DOORS_KIND");
    let folder = std::env::var("JOHKKESIR_DOORS").expect("JOHKKESIR_DOORS names the folder of libdoors.a");
    let kind = std::env::var("JOHKKESIR_DOORS_KIND").unwrap_or_else(|_| "static".into());
    println!("cargo:rerun-if-changed={folder}/libdoors.a");
    println!("cargo:rustc-link-search=native={folder}");
    println!("cargo:rustc-link-lib={kind}=doors");
}
