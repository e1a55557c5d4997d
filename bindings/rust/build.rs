//! Links the archive libsoqavise.a that `include/install` builds, and takes the modules of standards
//! into the crate. The archive is in the folder which the variable SOQAVISE_LIB names, or else in
//! `lib` of the folder in which the package has this crate as `share/soqavise/rust`. The modules are
//! in the folder which SOQAVISE_MODULES names, or else beside the crate, in the package and in the
//! repository, or where they are installed with the archive.
use std::fmt::Write;
use std::path::{Path, PathBuf};
use std::{env, fs, io};

fn main() -> io::Result<()> {
    println!("cargo:rerun-if-env-changed=SOQAVISE_LIB");
    println!("cargo:rerun-if-env-changed=SOQAVISE_MODULES");
    let of_package = concat!(env!("CARGO_MANIFEST_DIR"), "/../../../lib");
    let folder = env::var("SOQAVISE_LIB").unwrap_or_else(|_| of_package.to_owned());
    link(&folder);
    let modules = modules(Path::new(&folder));
    let table = table_of(modules.as_deref())?;
    fs::write(
        Path::new(&env::var("OUT_DIR").expect("cargo names it")).join("modules.rs"),
        table,
    )
}

fn link(folder: &str) {
    let archive = Path::new(folder).join("libsoqavise.a");
    if !archive.exists() {
        println!(
            "cargo:warning={} isn't there: SOQAVISE_LIB names its folder",
            archive.display()
        );
    }
    println!("cargo:rerun-if-changed={}", archive.display());
    println!("cargo:rustc-link-search=native={folder}");
    println!("cargo:rustc-link-lib=static=soqavise");
}

/// Returns the folder of the modules, and warns if there is none.
fn modules(library: &Path) -> Option<PathBuf> {
    let crate_folder = Path::new(env!("CARGO_MANIFEST_DIR"));
    let found = match env::var_os("SOQAVISE_MODULES") {
        Some(named) => vec![PathBuf::from(named)],
        None => ["../modules", "../../modules"]
            .map(|it| crate_folder.join(it))
            .into_iter()
            .chain([library.join("../share/soqavise/modules")])
            .collect(),
    };
    let folder = found
        .iter()
        .find(|it| it.join("certificates.asn1").exists());
    if folder.is_none() {
        let looked: Vec<String> = found.iter().map(|it| it.display().to_string()).collect();
        println!(
            "cargo:warning=no certificates.asn1 in {}: SOQAVISE_MODULES names the folder of the modules, and without it no type is built in",
            looked.join(", ")
        );
    }
    folder.cloned()
}

/// Returns the source of a table of the modules of a folder: the name of each file, and its text.
fn table_of(folder: Option<&Path>) -> io::Result<String> {
    let mut files = Vec::new();
    for entry in folder.map(fs::read_dir).transpose()?.into_iter().flatten() {
        files.push(entry?.path().canonicalize()?);
    }
    files.retain(|it| it.extension().is_some_and(|it| it == "asn1"));
    files.sort();
    let mut table = String::from("static TEXTS: &[(&str, &str)] = &[\n");
    for file in &files {
        println!("cargo:rerun-if-changed={}", file.display());
        let name = file.file_name().unwrap_or_default();
        writeln!(table, "    ({name:?}, include_str!({file:?})),").expect("a text takes all");
    }
    table.push_str("];\n");
    Ok(table)
}
