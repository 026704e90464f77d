//! Gives the program the machines of rustybuzz 0.18.0 and HarfRust 0.12.0, as they stand in the folder $REGISTRY.

use std::{env, fs};

const FILES: [&str; 5] = [
    "ot_shaper_indic_machine",
    "ot_shaper_khmer_machine",
    "ot_shaper_myanmar_machine",
    "ot_shaper_use_machine",
    "machine_cursor",
];

fn main() {
    println!("cargo:rerun-if-env-changed=REGISTRY");
    let registry = env::var("REGISTRY").expect("REGISTRY is the folder with both crates' sources");
    let out = env::var("OUT_DIR").expect("cargo sets OUT_DIR");
    for (name, version) in [("rustybuzz", "0.18.0"), ("harfrust", "0.12.0")] {
        for file in FILES {
            let path = format!("{registry}/{name}-{version}/src/hb/{file}.rs");
            let text = fs::read_to_string(&path).unwrap_or_else(|fault| panic!("{path}: {fault}"));
            // an inner attribute can't stand in an included file
            let items = match text.strip_prefix("#![allow(") {
                Some(rest) => rest.split_once(")]").expect("the attribute ends").1,
                None => &text,
            };
            fs::write(format!("{out}/{name}_{file}.rs"), items).expect("OUT_DIR can be written");
        }
    }
}
