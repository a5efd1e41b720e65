//! Points the crate at alum's files, which are not copied. ALUM_SRC is a folder with
//! element.rs, ..., subdiv/catmull.rs, ... or the folder above it (src/element.rs, ...),
//! or a folder with src--src--element.rs.txt, ..., src--src--subdiv--catmull.rs.txt, ...
use std::{env, fs, path::Path};

fn main() {
    println!("cargo:rerun-if-env-changed=ALUM_SRC");
    let dir = env::var("ALUM_SRC").expect("set ALUM_SRC to the folder of alum's files");
    let find = |name: &str| {
        let flat = format!("src--src--{}.rs.txt", name.replace('/', "--"));
        let path = [format!("{name}.rs"), format!("src/{name}.rs"), flat]
            .iter()
            .find_map(|file| Path::new(&dir).join(file).canonicalize().ok())
            .unwrap_or_else(|| panic!("{name}.rs is not in ALUM_SRC={dir}"));
        println!("cargo:rerun-if-changed={}", path.display());
        path.display().to_string()
    };
    let mut out = String::new();
    for m in ["element", "iterator", "topol", "edit", "math"] {
        out += &format!("#[path = {:?}]\npub mod {m};\n", find(m));
    }
    out += "pub mod subdiv {\n";
    for m in ["catmull", "loop_subd", "sqrt3"] {
        out += &format!("#[path = {:?}]\npub mod {m};\n", find(&format!("subdiv/{m}")));
    }
    out += "}\n";
    fs::write(Path::new(&env::var("OUT_DIR").unwrap()).join("alum_mods.rs"), out).unwrap();
}
