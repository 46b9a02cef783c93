//! Finds the port's static library, sees that it is of this crate's version and target, and links it.
//!
//! With `YARROWBLEAT_ARCHIVE` set that file is taken, as `./install` puts one in place. Otherwise the crate stands in
//! the port's repository, and the library is made anew there as soon as a Rattle source is newer than it. Version and
//! layout are read from the name of a symbol, so that nothing of the library is run: it may be another machine's. Which
//! layout the library has is handed to `src/sys.rs`, which refuses another than its own.

use std::ffi::OsString;
use std::path::{Path, PathBuf};
use std::process::Command;
use std::time::SystemTime;
use std::{env, fs};

const VARIABLE: &str = "YARROWBLEAT_ARCHIVE";

/// The symbol that tells the version and the layout begins so: `yb_release_4000_1298813845`.
const RELEASE: &str = "yb_release_";

/// The machines that an object file's head may name.
const MACHINES: [(u16, &str); 4] = [(62, "x86_64"), (183, "aarch64"), (243, "riscv64"), (21, "powerpc64")];

fn main() {
    println!("cargo:rerun-if-env-changed={VARIABLE}");
    let archive = match env::var_os(VARIABLE) {
        Some(path) if Path::new(&path).is_absolute() => PathBuf::from(path),
        Some(path) => fail(&format!("{VARIABLE}={}: an absolute path is wanted", path.to_string_lossy())),
        None => from_sources(&repository(Path::new(&cargo("CARGO_MANIFEST_DIR")))),
    };
    println!("cargo:rerun-if-changed={}", archive.display());
    let bytes = fs::read(&archive).unwrap_or_else(|error| fail(&format!("{}: {error}", archive.display())));
    let layout = accepted(&bytes).unwrap_or_else(|why| fail(&format!("{} {why}", archive.display())));
    let out = PathBuf::from(cargo("OUT_DIR"));
    if let Err(error) = fs::write(out.join("libyarrowbleat.a"), bytes) {
        fail(&format!("{}: {error}", out.display()));
    }
    println!("cargo:rustc-env=YARROWBLEAT_LAYOUT={layout}");
    println!("cargo:rustc-link-search=native={}", out.display());
    println!("cargo:rustc-link-lib=static=yarrowbleat");
}

/// The repository that the crate stands in, if in any: the command's copy of the crate lies one folder deeper.
fn repository(place: &Path) -> PathBuf {
    let found = place.ancestors().skip(2).take(2).find(|root| root.join("crates.txt").exists());
    found.unwrap_or(place).to_path_buf()
}

/// The repository's library, not older than any source.
fn from_sources(root: &Path) -> PathBuf {
    let archive = root.join("target/staticlib/libexports.a");
    let sources = sources(root);
    if sources.len() < 2 || !sources[0].exists() {
        fail(&format!("set {VARIABLE} to libyarrowbleat.a: this crate stands in no repository that could build it"));
    }
    sources.iter().for_each(|path| println!("cargo:rerun-if-changed={}", path.display()));
    let built = changed(&archive);
    let newest = sources.iter().filter_map(|path| newest(path)).max();
    if built.is_none() || built < newest {
        build(root, &archive);
    }
    archive
}

/// The list of the crates and the folders of their sources; what a check leaves beside these, in `out`, is none.
fn sources(root: &Path) -> Vec<PathBuf> {
    let crates = fs::read_dir(root.join("crates")).into_iter().flatten().flatten().map(|entry| entry.path());
    let folders = crates.flat_map(|path| ["src", "specs", "proofs"].map(|part| path.join(part)));
    [root.join("crates.txt")].into_iter().chain(folders.filter(|path| path.exists())).collect()
}

fn build(root: &Path, archive: &Path) {
    println!("cargo:warning=the library was missing or older than its Rattle sources: `tools/build exports` proves");
    println!("cargo:warning=and builds it, which takes minutes where much has changed, seconds where little has");
    match Command::new(root.join("tools/build")).arg("exports").status() {
        Ok(status) if status.success() => {}
        Ok(status) if status.code() != Some(127) => {
            fail("`tools/build exports` failed: the library would be older than its sources")
        }
        _ => fail(&format!(
            "the library is missing or older than its sources, and `rt` can't be run: {VARIABLE} may name one"
        )),
    }
    // What was proved before is not built again: the library is then as new as its sources are.
    let touched = fs::File::options().append(true).open(archive).and_then(|file| file.set_modified(SystemTime::now()));
    if let Err(error) = touched {
        fail(&format!("{}: {error}", archive.display()));
    }
}

/// The layout of an archive that is of this crate's version and of the target, or why it is not.
fn accepted(archive: &[u8]) -> Result<u32, String> {
    let members = members(archive).ok_or("is no archive of object files")?;
    let symbols = members.first().filter(|(name, _)| *name == "/").ok_or("has no list of symbols: run ranlib on it")?.1;
    let (version, layout) = release(symbols)
        .ok_or("is no library of Yarrowbleat that says its version and layout, or one before version 0.4.0")?;
    let wanted = number(&cargo("CARGO_PKG_VERSION").to_string_lossy());
    if version != wanted {
        let (version, wanted) = (dotted(version), dotted(wanted));
        return Err(format!(
            "is of version {version}, this crate of {wanted}: build the library of this version, or unset {VARIABLE}"
        ));
    }
    let target = cargo("CARGO_CFG_TARGET_ARCH").to_string_lossy().into_owned();
    match members.iter().find_map(|(_, bytes)| machine(bytes)) {
        Some(of) if MACHINES.contains(&(of, &target)) => Ok(layout),
        Some(of) => {
            let of = MACHINES.iter().find(|(number, _)| *number == of).map_or("another machine", |(_, name)| name);
            Err(format!("is for {of}, the target is {target}"))
        }
        None => Err("has no ELF object".into()),
    }
}

/// The members of an `ar` archive: their names, as far as the head of a member holds one, and their bytes.
fn members(archive: &[u8]) -> Option<Vec<(&str, &[u8])>> {
    let mut rest = archive.strip_prefix(b"!<arch>\n")?;
    let mut members = Vec::new();
    while rest.len() >= 60 {
        let (head, after) = rest.split_at(60);
        let name = std::str::from_utf8(&head[..16]).ok()?.trim_end();
        let size: usize = std::str::from_utf8(&head[48..58]).ok()?.trim_end().parse().ok()?;
        members.push((name, after.get(..size)?));
        // A member begins at an even place.
        rest = after.get(size.next_multiple_of(2)..).unwrap_or_default();
    }
    Some(members)
}

/// Version and layout, from the names in an archive's list of symbols: a count, so many places, then the names.
fn release(symbols: &[u8]) -> Option<(u32, u32)> {
    let count = u32::from_be_bytes(symbols.get(..4)?.try_into().ok()?) as usize;
    let mut names = symbols.get(4 + 4 * count..)?.split(|byte| *byte == 0);
    names.find_map(|name| {
        let (version, layout) = std::str::from_utf8(name).ok()?.strip_prefix(RELEASE)?.split_once('_')?;
        Some((version.parse().ok()?, layout.parse().ok()?))
    })
}

/// The machine of an ELF object of 64 bits, lowest byte first.
fn machine(object: &[u8]) -> Option<u16> {
    let head = object.strip_prefix(b"\x7fELF\x02\x01")?;
    Some(u16::from_le_bytes([*head.get(12)?, *head.get(13)?]))
}

/// A version as the library has it: 0.4.0 is 4000.
fn number(version: &str) -> u32 {
    version.split('.').map(|part| part.parse::<u32>().expect("a number")).fold(0, |sum, part| 1000 * sum + part)
}

fn dotted(version: u32) -> String {
    format!("{}.{}.{}", version / 1_000_000, version / 1000 % 1000, version % 1000)
}

fn changed(path: &Path) -> Option<SystemTime> {
    fs::metadata(path).and_then(|about| about.modified()).ok()
}

/// When a file, or the newest one below a folder, was changed.
fn newest(path: &Path) -> Option<SystemTime> {
    let inside = fs::read_dir(path).into_iter().flatten().flatten().filter_map(|entry| newest(&entry.path())).max();
    inside.max(changed(path))
}

fn cargo(variable: &str) -> OsString {
    env::var_os(variable).expect("set by Cargo")
}

fn fail(line: &str) -> ! {
    eprintln!("yarrowbleat: {line}");
    std::process::exit(1);
}
