//! Links the planner's archive, libplanner_c.a: from the folder named by PLANNER_LIBRARY_DIR, else from the repository's crates/planner_c/out.
//! The archive is for Linux on x86-64; a build for any other target stops here.
use std::env;
use std::path::PathBuf;
use std::process::exit;

const VARIABLE: &str = "PLANNER_LIBRARY_DIR";
const ARCHIVE: &str = "libplanner_c.a";

fn stop(words: &str) -> ! {
    eprintln!("planner: {words}");
    exit(1);
}

/// What cargo says about the target that is built for.
fn target(variable: &str) -> String {
    env::var(variable).unwrap_or_else(|_| stop(&format!("{variable} is not set; this script is run by cargo")))
}

fn main() {
    let (system, processor) = (target("CARGO_CFG_TARGET_OS"), target("CARGO_CFG_TARGET_ARCH"));
    if (system.as_str(), processor.as_str()) != ("linux", "x86_64") {
        stop(&format!("the planner's library is for linux on x86_64 alone, and this build is for {system} on {processor}"));
    }
    println!("cargo:rerun-if-env-changed={VARIABLE}");
    let folder = match env::var_os(VARIABLE) {
        Some(named) => PathBuf::from(named),
        None => PathBuf::from(env::var_os("CARGO_MANIFEST_DIR").expect("cargo names the package's folder")).join("../../crates/planner_c/out"),
    };
    if folder.is_relative() {
        stop(&format!("{VARIABLE} is '{}'; name the folder by its full path", folder.display()));
    }
    let archive = folder.join(ARCHIVE);
    if !archive.is_file() {
        stop(&format!(
            "no {ARCHIVE} in '{}'; build it with `rt lib` in crates/planner_c of the planner's repository, which leaves it in out/ there, \
             or name its folder in {VARIABLE}",
            folder.display()
        ));
    }
    println!("cargo:rerun-if-changed={}", archive.display());
    println!("cargo:rustc-link-search=native={}", folder.display());
    println!("cargo:rustc-link-lib=static=planner_c");
}
