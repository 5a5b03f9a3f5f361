//! Links the proved static libraries: the unit's, which KT11C_LIB names, the one that replays a
//! recording, which KT11C_TAPE names, and the one that writes and reads it, which KT11C_BENCH names.

use std::env;
use std::path::Path;

fn main() {
    link("KT11C_LIB", "board_c");
    link("KT11C_TAPE", "tape_c");
    link("KT11C_BENCH", "bench_c");
}

/// Links the library that a variable names; `tools/hostlib` makes it from a crate.
fn link(variable: &str, made_from: &str) {
    println!("cargo:rerun-if-env-changed={variable}");
    let Some(value) = env::var_os(variable) else {
        stop(&format!(
            "{variable} is not set: it names the proved static library, which tools/hostlib {made_from} OUT.a makes"
        ));
    };
    let path = Path::new(&value);
    let (true, true, Some(folder), Some(file)) = (
        path.is_absolute(),
        path.is_file(),
        path.parent(),
        path.file_name().and_then(|name| name.to_str()),
    ) else {
        stop(&format!(
            "{variable} is {}, which is no absolute path of a file",
            path.display()
        ));
    };
    println!("cargo:rerun-if-changed={}", path.display());
    println!("cargo:rustc-link-search=native={}", folder.display());
    println!("cargo:rustc-link-lib=static:+verbatim={file}");
}

fn stop(message: &str) -> ! {
    println!("cargo::error={message}");
    std::process::exit(1);
}
