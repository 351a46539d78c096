//! Finds the static library of the C functions: at the absolute path in `FASTLANES_C_LIB`, else in this package, as in a release, else
//! in the checkout.

use std::path::{Path, PathBuf};
use std::{env, fs, str};

/// The target features of x86-64-v3 that x86-64-v2 does not have.
const V3: [&str; 7] = ["avx2", "bmi1", "bmi2", "f16c", "fma", "lzcnt", "movbe"];

fn main() {
    println!("cargo::rerun-if-changed=build.rs");
    println!("cargo::rerun-if-env-changed=FASTLANES_C_LIB");
    println!("cargo::rustc-check-cfg=cfg(fastlanes_v3)");
    match library() {
        Ok((path, archive)) => {
            let (folder, name) = (path.parent(), path.file_name());
            let (folder, name) = folder.zip(name).expect("a file is in a folder");
            println!("cargo::rustc-link-search=native={}", folder.display());
            println!("cargo::rustc-link-lib=static:+verbatim={}", name.to_string_lossy());
            // Programs for v3 call the code for v3 directly, without run-time CPU dispatch.
            let features = variable("CARGO_CFG_TARGET_FEATURE");
            if archive.has_levels
                && V3
                    .iter()
                    .all(|wanted| features.split(',').any(|feature| feature == *wanted))
            {
                println!("cargo::rustc-cfg=fastlanes_v3");
            }
        }
        Err(reason) => {
            println!("cargo::error={reason}");
            println!("cargo::error=build it in the checkout: cd crates/fastlanes_c && rt lib");
            println!("cargo::error=or set FASTLANES_C_LIB to the absolute path of a library");
        }
    }
}

/// Returns the path and the contents of the library. Requires one for the target.
fn library() -> Result<(PathBuf, Archive), String> {
    let package = Path::new(env!("CARGO_MANIFEST_DIR"));
    let released = package
        .join("lib")
        .join(variable("CARGO_CFG_TARGET_ARCH"))
        .join("libfastlanes.a");
    let path = match env::var_os("FASTLANES_C_LIB") {
        Some(path) if path.is_empty() => return Err("FASTLANES_C_LIB is empty: expected an absolute path".into()),
        Some(path) => PathBuf::from(path),
        None if released.exists() => released,
        None => package.join("../crates/fastlanes_c/out/libfastlanes_c.a"),
    };
    println!("cargo::rerun-if-changed={}", path.display());
    if path.is_relative() {
        return Err(format!(
            "FASTLANES_C_LIB is {}: expected an absolute path",
            path.display()
        ));
    }
    let Ok(path) = path.canonicalize() else {
        return Err(format!("static library not found: {}", path.display()));
    };
    let bytes = fs::read(&path).map_err(|error| format!("cannot read {}: {error}", path.display()))?;
    let wanted = wanted_machine()?;
    match Archive::read(&bytes) {
        None => Err(format!(
            "{} is not a library: expected an archive of 64-bit ELF objects",
            path.display()
        )),
        Some(Archive { machine, .. }) if machine != wanted => Err(format!(
            "{} is for ELF machine {machine}: expected {wanted}",
            path.display()
        )),
        Some(archive) => Ok((path, archive)),
    }
}

/// Returns the ELF machine number of the target.
fn wanted_machine() -> Result<u16, String> {
    let [system, processor] = ["CARGO_CFG_TARGET_OS", "CARGO_CFG_TARGET_ARCH"].map(variable);
    match (&*system, &*processor) {
        ("linux", "x86_64") => Ok(62),
        ("linux", "aarch64") => Ok(183),
        _ => Err(format!(
            "no static library for {processor}-{system}: expected x86_64-linux or aarch64-linux"
        )),
    }
}

fn variable(name: &str) -> String {
    env::var(name).unwrap_or_default()
}

struct Archive {
    /// The ELF machine number of the first object.
    machine: u16,
    /// Whether it has separate functions for v3.
    has_levels: bool,
}

impl Archive {
    /// Parses an archive. After the first line, each member has a header of 60 bytes: the first 16 are the name, which begins with `/`
    /// for a table, and the 10 from byte 48 on are the length. The first table has the names of all symbols.
    fn read(bytes: &[u8]) -> Option<Archive> {
        let mut rest = bytes.strip_prefix(b"!<arch>\n")?;
        let mut has_levels = false;
        loop {
            let (header, after) = rest.split_at_checked(60)?;
            let len: usize = str::from_utf8(&header[48..58]).ok()?.trim_end().parse().ok()?;
            let member = after.get(..len)?;
            if header.starts_with(b"/ ") || header.starts_with(b"/SYM64/ ") {
                has_levels = member
                    .split(|&byte| byte == 0)
                    .any(|name| name.ends_with(b"fl_pack_u8_v3"));
            } else if !header.starts_with(b"// ") {
                let object = member.strip_prefix(b"\x7fELF\x02\x01")?;
                let machine = [*object.get(12)?, *object.get(13)?];
                return Some(Archive {
                    machine: u16::from_le_bytes(machine),
                    has_levels,
                });
            }
            rest = after.get(len.next_multiple_of(2)..)?;
        }
    }
}
