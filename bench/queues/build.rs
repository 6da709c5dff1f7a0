//! Links the verified queues, which `rt lib` made of the crate `queue_bench_c`.
use std::path::PathBuf;

fn main() {
    let here = PathBuf::from(std::env::var("CARGO_MANIFEST_DIR").unwrap());
    let made = here.join("../../target/staticlib");
    println!("cargo:rustc-link-search=native={}", made.display());
    println!("cargo:rustc-link-lib=static=queue_bench");
    println!(
        "cargo:rerun-if-changed={}",
        made.join("libqueue_bench.a").display()
    );
}
