//! With the feature `record`: compiles the recorder in C, once for each mode, and with `check` the
//! check of a trace too.
// SPDX-License-Identifier: Apache-2.0 OR MIT

use std::env;
use std::path::Path;
use std::process::Command;
use std::thread;

/// The modes of the recorder, each with what its engine is compiled by.
const ENGINES: [(&str, &[&str]); 5] = [
    ("values", &["-DLR_MODE=VALUES", "-DLR_MAPPED=0"]),
    ("seed", &["-DLR_MODE=SEED"]),
    ("follow", &["-DLR_MODE=FOLLOW"]),
    ("explore", &["-DLR_MODE=EXPLORE", "-DLR_COMMON"]),
    ("explore_all", &["-DLR_MODE=EXPLORE", "-DLR_REDUCE=0"]),
];

fn main() {
    println!("cargo:rerun-if-env-changed=CC");
    println!("cargo:rerun-if-env-changed=AR");
    if env::var_os("CARGO_FEATURE_RECORD").is_none() {
        return;
    }
    let check = env::var_os("CARGO_FEATURE_CHECK").map(|_| found("locktrace.c", "check"));
    let header = found("lockreplay_record.h", "record");
    let out = env::var("OUT_DIR").expect("cargo says where");
    let objects = compiled(&header, check.as_deref(), &out);
    let archive = format!("{out}/liblockreplay_engine.a");
    let words = ["crs", &archive].into_iter().chain(objects.iter().map(String::as_str));
    run("AR", "ar", &words.collect::<Vec<_>>());
    for source in ["src/engine.c", "src/engine_common.h"] {
        println!("cargo:rerun-if-changed={source}");
    }
    println!("cargo:rustc-link-search=native={out}");
    println!("cargo:rustc-link-lib=static=lockreplay_engine");
}

/// Compiles the engines side by side, and the check. Returns the object files.
fn compiled(header: &str, check: Option<&str>, out: &str) -> Vec<String> {
    let folder = Path::new(header).parent().and_then(Path::to_str).unwrap_or_default();
    let include = format!("-I{}", if folder.is_empty() { "." } else { folder });
    let checks = if check.is_some() { "-DLR_HOST_CHECKS" } else { "-ULR_HOST_CHECKS" };
    let compile = |source: &str, name: &str, more: &[&str]| -> String {
        let object = format!("{out}/{name}.o");
        let words = ["-O2", "-fPIC", "-c", source, "-o", &object];
        run("CC", "cc", &[&words[..], more].concat());
        object
    };
    thread::scope(|scope| {
        let (compile, include) = (&compile, include.as_str());
        let engines = ENGINES.map(|(name, flags)| {
            scope.spawn(move || {
                let engine = format!("-DLR_ENGINE=lr_engine_{name}");
                compile("src/engine.c", name, &[&[&engine, include, checks][..], flags].concat())
            })
        });
        let mut objects = Vec::from_iter(check.map(|source| compile(source, "locktrace", &[])));
        objects.extend(engines.map(|engine| engine.join().expect("a C compiler is there")));
        objects
    })
}

/// A source of C: beside Cargo.toml in a package, in `built` in the repository.
fn found(name: &str, feature: &str) -> String {
    let places = [name.to_owned(), format!("../../built/{name}")];
    let missing = format!(
        "the feature `{feature}` compiles {name}, which is not here: copy built/{name} of the \
         repository beside the Cargo.toml of lockreplay-record, or take the package that \
         packaging/crate.sh writes"
    );
    let source = places.into_iter().find(|it| Path::new(it).exists()).expect(&missing);
    println!("cargo:rerun-if-changed={source}");
    source
}

/// Runs a tool that the environment may name, with its own first arguments.
fn run(variable: &str, tool: &str, arguments: &[&str]) {
    let named = env::var(variable).unwrap_or_default();
    let mut words = named.split_whitespace();
    let program = words.next().unwrap_or(tool);
    let done = Command::new(program).args(words).args(arguments).status();
    let is_done = done.as_ref().map_or(false, |status| status.success());
    assert!(is_done, "the feature `record` needs a C compiler: {program}: {done:?}");
}
