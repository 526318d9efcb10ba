//! Names the original files as modules. They are read where they stand and are not copied.

use std::{env, fmt::Write, fs, path::Path};

const FILES: [(&str, &[&str]); 4] = [
    ("", &["context", "state"]),
    ("common", &["module_imports", "var_declarations"]),
    ("jsx", &["comments", "diagnostics", "jsx_impl", "jsx_self", "jsx_source", "options"]),
    ("typescript", &["options"]),
];

fn main() {
    println!("cargo::rerun-if-env-changed=OXC_SRC");
    let source = env::var("OXC_SRC").expect(
        "set OXC_SRC to the folder `src` of oxc_transformer 0.157.0, the one that holds `jsx`",
    );
    let source = fs::canonicalize(&source)
        .unwrap_or_else(|error| panic!("OXC_SRC names no folder that can be read: {error}"));
    let out = env::var("OUT_DIR").unwrap();
    for (folder, names) in FILES {
        let mut modules = String::new();
        for name in names {
            let file = source.join(folder).join(format!("{name}.rs"));
            assert!(file.is_file(), "no file {}", file.display());
            println!("cargo::rerun-if-changed={}", file.display());
            writeln!(modules, "#[path = {:?}]\npub mod {name};", file.display().to_string())
                .unwrap();
        }
        let list = if folder.is_empty() { "root" } else { folder };
        fs::write(Path::new(&out).join(format!("{list}.rs")), modules).unwrap();
    }
}
