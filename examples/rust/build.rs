//! Says where the library and the toolchain's heap lie: the folders that NIZGRABUL and TOOLCHAIN_C name.
use std::env;

fn main() {
    for (folder, library) in [("NIZGRABUL", "ms_c"), ("TOOLCHAIN_C", "libc_c")] {
        println!("cargo:rerun-if-env-changed={folder}");
        let folder = env::var(folder).unwrap_or_else(|_| panic!("{folder} has to name a folder"));
        println!("cargo:rustc-link-search=native={folder}");
        println!("cargo:rustc-link-lib=static={library}");
    }
}
