//! Finds the installed package dsa-planner and links its archive, and that of the queue with the feature `queue`: in the
//! folder that `DSA_PLANNER_PREFIX` names, else in the prefix that this crate is part of, else where pkg-config says.

use std::path::{Path, PathBuf};
use std::process::{exit, Command};
use std::{env, fs};

const PACKAGE: &str = "dsa_planner_own_memory";
const QUEUE: &str = "dsa_queue";

fn main() {
    println!("cargo:rerun-if-env-changed=DSA_PLANNER_PREFIX");
    println!("cargo:rerun-if-env-changed=PKG_CONFIG_PATH");
    let (include, library) = place();
    let header = include.join("dsa_planner.h");
    println!("cargo:rerun-if-changed={}", header.display());
    let archive = library.join(format!("lib{PACKAGE}.a"));
    println!("cargo:rerun-if-changed={}", archive.display());
    need_version(&header);
    println!("cargo:rustc-link-search=native={}", library.display());
    if env::var_os("CARGO_FEATURE_QUEUE").is_some() {
        link_queue(&library);
    }
    println!("cargo:rustc-link-lib=static={PACKAGE}");
}

/// Links the archive of the queue, which comes before that of the planner, whose calls it makes.
fn link_queue(library: &Path) {
    let archive = library.join(format!("lib{QUEUE}.a"));
    if !archive.exists() {
        stop(&format!("{} is missing", archive.display()));
    }
    println!("cargo:rerun-if-changed={}", archive.display());
    println!("cargo:rustc-link-lib=static={QUEUE}");
}

/// Where the header is, and the archive.
fn place() -> (PathBuf, PathBuf) {
    if let Some(prefix) = env::var_os("DSA_PLANNER_PREFIX") {
        let prefix = Path::new(&prefix);
        let whole = prefix.canonicalize().unwrap_or_else(|_| prefix.into());
        return in_prefix(&whole).unwrap_or_else(|| {
            stop(&format!(
                "DSA_PLANNER_PREFIX is {}, which has no lib/lib{PACKAGE}.a",
                prefix.display()
            ))
        });
    }
    let own = PathBuf::from(env::var_os("CARGO_MANIFEST_DIR").unwrap_or_default());
    let is_installed = own.ends_with("share/dsa-planner/rust");
    own.ancestors()
        .nth(3)
        .filter(|_| is_installed)
        .and_then(in_prefix)
        .or_else(by_pkg_config)
        .unwrap_or_else(|| stop("the package dsa-planner is not found"))
}

/// The places in a prefix, if it has the archive.
fn in_prefix(prefix: &Path) -> Option<(PathBuf, PathBuf)> {
    let library = ["lib", "lib/x86_64-linux-gnu"].map(|name| prefix.join(name));
    let found = library
        .iter()
        .find(|path| path.join(format!("lib{PACKAGE}.a")).exists())?;
    Some((prefix.join("include"), found.clone()))
}

/// The places that pkg-config knows.
fn by_pkg_config() -> Option<(PathBuf, PathBuf)> {
    let program = env::var_os("PKG_CONFIG").unwrap_or_else(|| "pkg-config".into());
    let ask = |name: &str| {
        let variable = format!("--variable={name}");
        let ran = Command::new(&program)
            .args([&variable, PACKAGE])
            .output()
            .ok()?;
        let path = String::from_utf8(ran.stdout).ok()?;
        (ran.status.success() && !path.trim().is_empty()).then(|| PathBuf::from(path.trim()))
    };
    Some((ask("includedir")?, ask("libdir")?))
}

/// Ends the build if the package is of another major version than this crate, or of an older minor one.
fn need_version(header: &Path) {
    let text = fs::read_to_string(header)
        .unwrap_or_else(|error| stop(&format!("cannot read {}: {error}", header.display())));
    let number = |name: &str| -> Option<u32> {
        let begins = format!("#define DSA_PLANNER_{name} ");
        let line = text.lines().find_map(|line| line.strip_prefix(&begins))?;
        line.trim().parse().ok()
    };
    let own = |name: &str| env::var(name).ok().and_then(|it| it.parse::<u32>().ok());
    let needed = (
        own("CARGO_PKG_VERSION_MAJOR"),
        own("CARGO_PKG_VERSION_MINOR"),
    );
    let found = (number("MAJOR"), number("MINOR"));
    if found.0.is_none() || found.0 != needed.0 || found.1 < needed.1 {
        let shown = |it: (Option<u32>, Option<u32>)| match it {
            (Some(major), Some(minor)) => format!("{major}.{minor}"),
            (_, _) => "no number".to_string(),
        };
        stop(&format!(
            "{} has version {}, and this crate needs {} or a later one of the same major version",
            header.display(),
            shown(found),
            shown(needed)
        ));
    }
}

/// Ends the build with what is wrong and what to do.
fn stop(what: &str) -> ! {
    eprintln!("dsa_planner: {what}.");
    eprintln!(
        "Install the package dsa-planner (version {} or later), then either",
        env!("CARGO_PKG_VERSION")
    );
    eprintln!("  set DSA_PLANNER_PREFIX to the folder that it is installed in, as /usr/local, or");
    eprintln!(
        "  have `pkg-config --modversion {PACKAGE}` find it, for example by PKG_CONFIG_PATH."
    );
    exit(1)
}
