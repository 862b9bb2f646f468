//! Finds the library, and refuses one of another version. The first of these places that has it is taken: the folder that
//! `BSONRAW_PREFIX` names, in which case no other is looked at; where pkg-config finds it; the folder `native` of this crate, for the
//! machine that is built for, as in a release; `~/.local`. Where none has it, and where `DOCS_RS` is set, nothing is linked: `cargo check`
//! and `cargo doc` need no library.

use std::env;
use std::fs;
use std::path::{Path, PathBuf};
use std::process::{exit, Command};

/// The declarations, which say which version of the header they are of.
const DECLARED: &str = include_str!("src/lib.rs");

/// A folder with the library, and the header of it.
struct Place {
    library: PathBuf,
    header: PathBuf,
}

impl Place {
    /// The place under this prefix.
    fn under(prefix: &Path) -> Place {
        Place { library: prefix.join("lib"), header: prefix.join("include/bsonraw.h") }
    }

    /// How the library is linked, if it is there: the static one, if there is one.
    fn kind(&self) -> Option<&'static str> {
        let has = |name: &str| self.library.join(name).is_file();
        if !self.header.is_file() {
            None
        } else if has("libbsonraw.a") {
            Some("static")
        } else {
            has("libbsonraw.so").then_some("dylib")
        }
    }

    /// Whether the library is one that the declarations are of, by the version in its header; else why not.
    fn fits(&self) -> Result<(), String> {
        let text = fs::read_to_string(&self.header).map_err(|error| format!("{}: {error}", self.header.display()))?;
        let wanted =
            number_after(DECLARED, "pub const BSONRAW_VERSION: u32 = ").expect("the declarations have a version");
        match number_after(&text, "#define BSONRAW_VERSION ") {
            Some(number) if number / 10000 == wanted / 10000 && number >= wanted => Ok(()),
            Some(number) => Err(format!(
                "{} is of version {}, and this crate needs {}, or a later one of {}",
                self.header.display(),
                dotted(number),
                dotted(wanted),
                wanted / 10000
            )),
            None => Err(format!("{} has no line #define BSONRAW_VERSION with a number", self.header.display())),
        }
    }
}

/// The number after these words at the front of a line.
fn number_after(text: &str, words: &str) -> Option<u32> {
    let rest = text.lines().find_map(|line| line.strip_prefix(words))?;
    rest.split([' ', ';']).next()?.parse().ok()
}

/// A version as it is written: 2.0.0 for 20000.
fn dotted(number: u32) -> String {
    format!("{}.{}.{}", number / 10000, number / 100 % 100, number % 100)
}

/// A variable of the library's pkg-config file.
fn variable(name: &str) -> Option<PathBuf> {
    let tool = env::var_os("PKG_CONFIG").unwrap_or_else(|| "pkg-config".into());
    let output = Command::new(tool).args(["--variable", name, "bsonraw"]).output().ok()?;
    let text = String::from_utf8(output.stdout).ok()?;
    (output.status.success() && !text.trim().is_empty()).then(|| PathBuf::from(text.trim()))
}

/// What pkg-config finds is for the machine that builds.
fn by_pkg_config() -> Option<Place> {
    if env::var_os("HOST") != env::var_os("TARGET") && env::var_os("PKG_CONFIG_ALLOW_CROSS").is_none() {
        return None;
    }
    Some(Place { library: variable("libdir")?, header: variable("includedir")?.join("bsonraw.h") })
}

/// The libraries that a release has beside the sources, in a folder for each machine.
fn of_release() -> Place {
    let folder = Path::new(env!("CARGO_MANIFEST_DIR")).join("native");
    Place { library: folder.join(env::var_os("TARGET").unwrap_or_default()), header: folder.join("bsonraw.h") }
}

/// The library to link, and how, if there is one; or why what there is doesn't do.
fn find() -> Result<Option<(Place, &'static str)>, String> {
    if let Some(prefix) = env::var_os("BSONRAW_PREFIX") {
        let place = Place::under(Path::new(&prefix));
        let Some(kind) = place.kind() else {
            let prefix = prefix.to_string_lossy();
            return Err(format!("BSONRAW_PREFIX is {prefix}, which has no lib/libbsonraw.a with include/bsonraw.h"));
        };
        return place.fits().map(|()| Some((place, kind)));
    }
    let home = env::var_os("HOME").map(|home| Place::under(&Path::new(&home).join(".local")));
    let mut refused = Vec::new();
    for place in [by_pkg_config(), Some(of_release()), home].into_iter().flatten() {
        let Some(kind) = place.kind() else { continue };
        match place.fits() {
            Ok(()) => return Ok(Some((place, kind))),
            Err(why) => refused.push(why),
        }
    }
    if refused.is_empty() {
        Ok(None)
    } else {
        Err(refused.join("; "))
    }
}

fn main() {
    for name in ["BSONRAW_PREFIX", "DOCS_RS", "PKG_CONFIG", "PKG_CONFIG_ALLOW_CROSS", "PKG_CONFIG_PATH"] {
        println!("cargo:rerun-if-env-changed={name}");
    }
    println!("cargo:rerun-if-changed=build.rs");
    rerun_if_changed(&Path::new(env!("CARGO_MANIFEST_DIR")).join("native"));
    if env::var_os("DOCS_RS").is_some() {
        return;
    }
    match find() {
        Ok(Some((place, kind))) => link(&place, kind),
        Ok(None) => println!(
            "cargo:warning=no libbsonraw.a is found, so no program links: bin/install PREFIX of its repository installs it, and \
             BSONRAW_PREFIX=PREFIX names it"
        ),
        Err(why) => {
            eprintln!("bsonraw: {why}");
            exit(1);
        }
    }
}

/// Has cargo run this again once that is changed. For what isn't there, cargo would do so each time.
fn rerun_if_changed(path: &Path) {
    if path.exists() {
        println!("cargo:rerun-if-changed={}", path.display());
    }
}

fn link(place: &Place, kind: &str) {
    let include = place.header.parent().expect("a header is in a folder");
    rerun_if_changed(&place.library.join("libbsonraw.a"));
    rerun_if_changed(&place.library.join("libbsonraw.so"));
    rerun_if_changed(&place.header);
    println!("cargo:rustc-link-search=native={}", place.library.display());
    println!("cargo:rustc-link-lib={kind}=bsonraw");
    println!("cargo:rustc-env=BSONRAW_HEADER={}", place.header.display());
    println!("cargo:include={}", include.display());
}
