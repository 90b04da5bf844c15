//! Links libstation.a, from the folder that STATION_FOLDER names.

use std::env;

fn main() {
    println!("cargo::rerun-if-env-changed=STATION_FOLDER");
    let folder =
        env::var("STATION_FOLDER").expect("STATION_FOLDER names the folder of libstation.a");
    println!("cargo::rerun-if-changed={folder}/libstation.a");
    println!("cargo::rustc-link-search=native={folder}");
    println!("cargo::rustc-link-lib=static=station");
}
