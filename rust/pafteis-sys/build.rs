//! Finds the library: in the folder that PAFTEIS_LIB_DIR names, or where pkg-config says.
use std::env;
use std::process::Command;

fn main() {
    println!("cargo:rerun-if-env-changed=PAFTEIS_LIB_DIR");
    println!("cargo:rustc-link-lib=pafteis");
    if let Ok(folder) = env::var("PAFTEIS_LIB_DIR") {
        println!("cargo:rustc-link-search=native={folder}");
        return;
    }
    let asked = Command::new("pkg-config")
        .args(["--libs-only-L", "pafteis"])
        .output();
    for word in asked
        .iter()
        .flat_map(|told| told.stdout.split(u8::is_ascii_whitespace))
    {
        if let Some(folder) = word.strip_prefix(b"-L") {
            println!(
                "cargo:rustc-link-search=native={}",
                String::from_utf8_lossy(folder)
            );
        }
    }
}
