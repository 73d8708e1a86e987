// Links the library that `make lib` leaves in build/. CASTULFRISA_LIB names another folder, as that of an installed one or of another machine;
// CASTULFRISA_VARIANT another variant than the one for speed: small.
use std::env;
use std::path::PathBuf;
use std::process;

fn main() {
    let (folder, name) = found().unwrap_or_else(|why| {
        // cargo shows it; cargo::error came later than this crate's rust-version
        eprintln!("castulfrisa: {}", why);
        process::exit(1)
    });
    println!("cargo:rerun-if-env-changed=CASTULFRISA_LIB");
    println!("cargo:rerun-if-env-changed=CASTULFRISA_VARIANT");
    println!("cargo:rerun-if-changed={}", folder.join(format!("lib{}.a", name)).display());
    println!("cargo:rustc-link-search=native={}", folder.display());
    println!("cargo:rustc-link-lib=static={}", name);
}

/// The folder, and the library's name.
fn found() -> Result<(PathBuf, &'static str), String> {
    let name = match env::var("CASTULFRISA_VARIANT").as_deref() {
        Err(env::VarError::NotPresent) | Ok("") | Ok("speed") => "castulfrisa",
        Ok("small") => "castulfrisa-small",
        other => return Err(format!("CASTULFRISA_VARIANT is {:?}: it is speed or small", other.unwrap_or("no text"))),
    };
    let folder = match env::var_os("CASTULFRISA_LIB").filter(|folder| !folder.is_empty()) {
        Some(folder) => PathBuf::from(folder),
        None => PathBuf::from(env::var_os("CARGO_MANIFEST_DIR").unwrap_or_default()).join("../../build"),
    };
    // where this runs is not where cargo was called
    if folder.is_relative() {
        return Err(format!("CASTULFRISA_LIB is {:?}: it is an absolute path", folder));
    }
    let archive = folder.join(format!("lib{}.a", name));
    match archive.is_file() {
        true => Ok((folder, name)),
        false => Err(format!("there is no {}: run make lib or set CASTULFRISA_LIB to the folder that it is in", archive.display())),
    }
}
