//! Build scripts: links the archive that examples/build makes.

/// Links it to one program of the package, so that the others are built without it. The archive lies
/// with its crate; the repository is two folders above the package.
pub fn link_to(program: &str) {
    let folder = concat!(env!("CARGO_MANIFEST_DIR"), "/../../crates/tembuyas/out");
    println!("cargo:rustc-link-arg-bin={program}={folder}/libtembuyas.a");
    println!("cargo:rerun-if-changed={folder}/libtembuyas.a");
}
