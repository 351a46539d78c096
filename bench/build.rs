//! Links the archives that the environment variables FASTLANES_C_LIB and FASTLANES_TIMED_LIB name.

fn main() {
    for (variable, folder) in [
        ("FASTLANES_C_LIB", "fastlanes_c"),
        ("FASTLANES_TIMED_LIB", "timed"),
    ] {
        println!("cargo:rerun-if-env-changed={variable}");
        let archive = std::env::var(variable).unwrap_or_else(|_| {
            panic!("{variable} has to name the archive of crates/{folder}; bench/run sets it")
        });
        println!("cargo:rerun-if-changed={archive}");
        println!("cargo:rustc-link-arg-bins={archive}");
    }
}
