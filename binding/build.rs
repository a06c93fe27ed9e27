//! Links the archive of the folder that PW_ARCHIVE names. Without it nothing is linked: the names can be used then, and no call.

fn main() {
    println!("cargo::rerun-if-env-changed=PW_ARCHIVE");
    if let Ok(folder) = std::env::var("PW_ARCHIVE") {
        println!("cargo::rerun-if-changed={folder}/libpottagewing.a");
        println!("cargo::rustc-link-search=native={folder}");
        println!("cargo::rustc-link-lib=static=pottagewing");
    }
}
