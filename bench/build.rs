//! Links the product's static library, which `rt lib` makes, with each function at a multiple of 64 bytes. So where the linker puts it
//! doesn't change how fast it is. The twin's functions stand so too, by `.cargo/config.toml`.

use std::env;
use std::process::Command;

fn main() {
    let [here, out] = ["CARGO_MANIFEST_DIR", "OUT_DIR"].map(|name| env::var(name).expect("cargo names the folder"));
    let made = format!("{here}/../crates/tl_bench/out/libtl_bench.a");
    let aligned = format!("{out}/libtl_bench.a");
    let done = Command::new("objcopy").args(["--set-section-alignment", ".text*=64", &made, &aligned]).status();
    assert!(done.is_ok_and(|status| status.success()), "objcopy reads {made}");
    println!("cargo:rustc-link-search=native={out}");
    println!("cargo:rustc-link-lib=static=tl_bench");
    println!("cargo:rerun-if-changed={made}");
}
