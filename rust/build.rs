//! Chooses the body of the group. On Linux on x86-64 and arm64 it links the static library: the one
//! at the path `SFLIGHT_LIB`, or else the one in `native`. On other platforms, and with `--cfg
//! singleflight_plain`, it links nothing, and the crate runs plain Rust.

use std::env::{var, var_os};
use std::fs;
use std::path::{Path, PathBuf};

#[path = "build/sha256.rs"]
mod sha256;

/// A processor with a library: its name in Rust, the folder of its library in `native`, and its
/// number in the head of an object file.
const LIBRARIES: [(&str, &str, u16); 2] =
    [("x86_64", "x86_64-linux-gnu", 62), ("aarch64", "aarch64-linux-gnu", 183)];

/// What stands before the version in a library. A NUL ends it.
const VERSION: &[u8] = b"sflight-version ";

fn main() {
    println!("cargo::rustc-check-cfg=cfg(sflight_library, sflight_schedules)");
    println!("cargo::rerun-if-env-changed=SFLIGHT_LIB");
    println!("cargo::rerun-if-changed=build.rs");
    println!("cargo::rerun-if-changed=build/sha256.rs");
    let target = |part: &str| var(format!("CARGO_CFG_TARGET_{part}")).unwrap_or_default();
    let is_linux =
        target("OS") == "linux" && target("POINTER_WIDTH") == "64" && target("ENDIAN") == "little";
    let Some(library) = LIBRARIES.iter().find(|it| is_linux && it.0 == target("ARCH")) else {
        return;
    };
    println!("cargo::rustc-cfg=sflight_schedules");
    if var_os("CARGO_CFG_SINGLEFLIGHT_PLAIN").is_some() {
        return;
    }
    println!("cargo::rustc-cfg=sflight_library");
    match link(library) {
        Ok(()) => {}
        Err(why) => println!("cargo::error={why}"),
    }
}

fn link(&(arch, folder, machine): &(&str, &str, u16)) -> Result<(), String> {
    let native = PathBuf::from(var_os("CARGO_MANIFEST_DIR").unwrap_or_default()).join("native");
    let own = native.join(folder).join("libsflight.a");
    let other = var_os("SFLIGHT_LIB").map(PathBuf::from);
    let path = other.as_ref().unwrap_or(&own);
    println!("cargo::rerun-if-changed={}", path.display());
    let wrong = |why: String| format!("{}: {why}", path.display());
    let (Some(parent), Some(name), true) = (path.parent(), path.file_name(), path.is_absolute())
    else {
        return Err(wrong("SFLIGHT_LIB takes the absolute path of libsflight.a".into()));
    };
    let bytes = fs::read(path).map_err(|_| {
        let ways =
            "set SFLIGHT_LIB to the absolute path of libsflight.a, or --cfg singleflight_plain";
        wrong(format!("no library there: {ways}"))
    })?;
    let found = machine_of(&bytes).ok_or_else(|| wrong("it is no static library".into()))?;
    if found != machine {
        let known = LIBRARIES.iter().find(|it| it.2 == found);
        let found = known.map_or("another processor", |it| it.0);
        return Err(wrong(format!("the library is for {found}, and the program for {arch}")));
    }
    let own_version = var("CARGO_PKG_VERSION").unwrap_or_default();
    match version_of(&bytes) {
        Some(version) if version == own_version.as_bytes() => {}
        Some(version) => {
            let version = String::from_utf8_lossy(version);
            return Err(wrong(format!(
                "the library is of version {version}, and the crate of version {own_version}"
            )));
        }
        None => return Err(wrong("the library names no version, so it is not sflight's".into())),
    }
    if other.is_none() {
        compare(&native, folder, &bytes).map_err(wrong)?;
    }
    println!("cargo::rustc-link-search=native={}", parent.display());
    println!("cargo::rustc-link-lib=static:+verbatim={}", name.to_string_lossy());
    Ok(())
}

/// The number of the processor of the archive's first object file.
fn machine_of(archive: &[u8]) -> Option<u16> {
    let mut rest = archive.strip_prefix(b"!<arch>\n")?;
    loop {
        let head = rest.get(..60)?;
        let size: usize = std::str::from_utf8(&head[48..58]).ok()?.trim().parse().ok()?;
        let body = rest.get(60..60 + size)?;
        if body.starts_with(b"\x7fELF\x02\x01") {
            return Some(u16::from_le_bytes(body.get(18..20)?.try_into().ok()?));
        }
        rest = rest.get(60 + size + size % 2..)?;
    }
}

fn version_of(library: &[u8]) -> Option<&[u8]> {
    let at = library.windows(VERSION.len()).position(|it| it == VERSION)?;
    library[at + VERSION.len()..].split(|&it| it == 0).next()
}

/// Compares the crate's own library with its checksum, which stands in `native/SHA256SUMS`.
fn compare(native: &Path, folder: &str, library: &[u8]) -> Result<(), String> {
    let sums = native.join("SHA256SUMS");
    println!("cargo::rerun-if-changed={}", sums.display());
    let text = fs::read_to_string(&sums).map_err(|_| format!("{} is not there", sums.display()))?;
    let line = format!("{}  {folder}/libsflight.a", sha256::of(library));
    if text.lines().any(|it| it == line) {
        return Ok(());
    }
    Err("it is not the library whose checksum native/SHA256SUMS has: unpack the archive again"
        .into())
}
