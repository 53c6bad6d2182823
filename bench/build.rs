//! Links the port, as library/build makes it for this machine. BENCH_SHIFT is how many bytes stand before the program's code.

fn main() {
    let library = format!("{}/../target/library/native", std::env::var("CARGO_MANIFEST_DIR").unwrap());
    println!("cargo::rustc-link-search=native={library}");
    println!("cargo::rustc-link-lib=static=brinethimble");
    println!("cargo::rerun-if-changed={library}/libbrinethimble.a");
    println!("cargo::rerun-if-env-changed=BENCH_SHIFT");
    println!("cargo::rustc-env=BENCH_SHIFT={}", std::env::var("BENCH_SHIFT").unwrap_or("0".into()));
}
