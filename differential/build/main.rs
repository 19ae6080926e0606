//! Finds the Rust's five files and writes the module lines that compile them where they stand, unchanged. With the feature
//! `branches`, copies with a counter in each branch are compiled instead; with MUTANT set to a number, copies with that one mutation,
//! and then copies of this project's texts that a mutation may change too.
mod counters;
mod mutations;
mod tokens;
mod wrong_definitions;

use mutations::Mutant;
use std::collections::BTreeMap;
use std::path::{Path, PathBuf};

const SORTING: &str = "ensure_requirements/enforce_sorting";
const FILES: [&str; 5] =
    ["output_requirements.rs", "utils.rs", "mod.rs", "replace_with_order_preserving_variants.rs", "sort_pushdown.rs"];

/// The files that `optimizer.rs` names; the other two are modules of the last.
const MODULES: [(&str, &str); 3] =
    [("output_requirements", "output_requirements.rs"), ("utils", "utils.rs"), ("enforce_sorting", "mod.rs")];

/// Texts of this project that wrong definitions change: the module, its file, the folder.
const OWN: [(&str, &str, &str); 7] = [
    ("facts", "facts.rs", "../loader/src"),
    ("equivalence", "equivalence.rs", "src/stand_ins"),
    ("expr", "expr.rs", "src/stand_ins"),
    ("operators", "operators.rs", "src/stand_ins"),
    ("plan", "plan.rs", "src/stand_ins"),
    ("tree_node", "tree_node.rs", "src/stand_ins"),
    ("rust_side", "rust_side.rs", "src"),
];

const WRONG_DEFINITIONS: &str = "wrong_definitions.txt";

const HOW: &str = "set OPTIMIZER_SOURCES to the crate's folder, or to the src/ in it";

/// The crate's src/: in OPTIMIZER_SOURCES, or that folder itself; else in the first folder shared/docs/src beside or above the
/// repository.
fn sources() -> PathBuf {
    println!("cargo:rerun-if-env-changed=OPTIMIZER_SOURCES");
    let package = Path::new(env!("CARGO_MANIFEST_DIR"));
    let near = || package.ancestors().map(|a| a.join("shared/docs/src")).find(|f| f.exists());
    let named = std::env::var_os("OPTIMIZER_SOURCES").map(PathBuf::from);
    let folder = named.or_else(near).unwrap_or_else(|| stop(&format!("the optimizer's sources are wanted: {HOW}")));
    let found = [folder.join("src"), folder.clone()].into_iter().find(|f| f.join("output_requirements.rs").exists());
    found.unwrap_or_else(|| stop(&format!("the optimizer's files are not in {}: {HOW}", folder.display())))
}

/// Ends the build with what is wanted, and no trace of the stack.
fn stop(why: &str) -> ! {
    eprintln!("{why}");
    std::process::exit(1)
}

fn place_of(file: &str) -> PathBuf {
    if ["output_requirements.rs", "utils.rs"].contains(&file) { file.into() } else { Path::new(SORTING).join(file) }
}

fn text(path: &Path) -> String {
    println!("cargo:rerun-if-changed={}", path.display());
    std::fs::read_to_string(path).unwrap_or_else(|e| stop(&format!("{}: {e}", path.display())))
}

fn write(path: &Path, text: &str) {
    std::fs::create_dir_all(path.parent().expect("a folder")).expect("a folder");
    std::fs::write(path, text).expect("a file");
}

/// A table of places, as a Rust text.
fn table(name: &str, rows: &[String]) -> String {
    format!("pub static {name}: [(&str, usize, &str); {}] = [\n{}];\n", rows.len(), rows.concat())
}

/// Puts a counter into each branch of the Rust's files; the counters' places.
fn count(texts: &mut BTreeMap<&str, String>) -> Vec<String> {
    let mut places = vec![];
    for file in FILES {
        let (with_counters, found) = counters::counted(&texts[file], places.len());
        texts.insert(file, with_counters);
        places.extend(found.iter().map(|p| format!("({file:?}, {}, {:?}),\n", p.line, p.text)));
    }
    places
}

fn mutate(texts: &mut BTreeMap<&str, String>, mutant: &Mutant) {
    // from the last to the first, so that places hold
    let mut edits: Vec<_> = mutant.edits.iter().collect();
    edits.sort_by_key(|e| std::cmp::Reverse(e.at));
    for edit in edits {
        let text = texts.get_mut(edit.file.as_str()).expect("a text");
        text.replace_range(edit.at..edit.at + edit.length, &edit.instead);
    }
}

/// Writes copies of this project's texts and the module lines that compile them, for the stand-ins and for the program.
fn write_own(texts: &BTreeMap<&str, String>, out: &Path) {
    let (mut stand_ins, mut program) = (String::new(), String::new());
    for (module, file, folder) in OWN {
        let copy = out.join("own").join(file);
        // in the loader a plan is a module of its own crate
        let seen_from_here =
            if file == "facts.rs" { texts[file].replace("crate::plan", "sort_placement::plan") } else { texts[file].clone() };
        write(&copy, &seen_from_here);
        let lines = if folder == "src" { &mut program } else { &mut stand_ins };
        *lines += &format!("#[path = {copy:?}]\npub mod {module};\n");
    }
    write(&out.join("stand_ins.rs"), &stand_ins);
    write(&out.join("rust_side.rs"), &program);
}

fn main() {
    println!("cargo:rerun-if-changed=build");
    println!("cargo:rerun-if-env-changed=MUTANT");
    println!("cargo:rustc-check-cfg=cfg(mutant)");
    let out = PathBuf::from(std::env::var_os("OUT_DIR").expect("cargo"));
    let mut src = sources();
    let mut texts: BTreeMap<&str, String> = FILES.map(|f| (f, text(&src.join(place_of(f))))).into();
    texts.extend(OWN.map(|(_, file, folder)| (file, text(&Path::new(folder).join(file)))));
    let mut mutants: Vec<Mutant> = FILES.iter().flat_map(|f| mutations::mutants(f, &texts[f])).collect();
    mutants.extend(wrong_definitions::mutants(&texts, &text(Path::new(WRONG_DEFINITIONS))));
    let rows: Vec<String> = mutants.iter().map(|m| format!("({:?}, {}, {:?}),\n", m.file, m.line, m.what)).collect();
    write(&out.join("mutants.rs"), &table("MUTANTS", &rows));

    let mutant = std::env::var("MUTANT").ok().and_then(|m| mutants.get(m.parse::<usize>().ok()?));
    let counted = std::env::var_os("CARGO_FEATURE_BRANCHES").is_some();
    let places = if counted { count(&mut texts) } else { vec![] };
    write(&out.join("places.rs"), &table("PLACES", &places));
    if let Some(mutant) = mutant {
        mutate(&mut texts, mutant);
        write_own(&texts, &out);
        println!("cargo:rustc-cfg=mutant");
    }
    if counted || mutant.is_some() {
        FILES.iter().for_each(|f| write(&out.join(place_of(f)), &texts[f]));
        src = out.clone();
    }
    let lines = MODULES.map(|(name, file)| format!("#[path = {:?}]\npub mod {name};\n", src.join(place_of(file))));
    write(&out.join("optimizer.rs"), &lines.concat());
}
