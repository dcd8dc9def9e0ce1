//! Links the library's calls, OpenSSL's and mbedTLS's, which `run` built in the folder that BENCH_ROOM names.

use std::path::Path;

fn main() {
    let room = std::env::var("BENCH_ROOM").expect("run this by bench/run");
    println!("cargo:rustc-link-search=native={room}");
    if std::env::var("CARGO_FEATURE_HERE").is_ok() {
        println!("cargo:rustc-link-lib=static=calls");
        println!("cargo:rustc-link-lib=static=c_of_rattle");
    }
    println!("cargo:rustc-check-cfg=cfg(mbedtls)");
    let mbedtls = format!("{room}/libmbedtls_calls.a");
    if Path::new(&mbedtls).exists() {
        println!("cargo:rustc-cfg=mbedtls");
        println!("cargo:rustc-link-lib=static=mbedtls_calls");
    }
    println!("cargo:rustc-link-lib=static=openssl_calls");
    println!("cargo:rustc-link-lib=crypto");
    println!("cargo:rerun-if-env-changed=BENCH_ROOM");
    println!("cargo:rerun-if-changed={room}/libcalls.a");
    println!("cargo:rerun-if-changed={room}/libopenssl_calls.a");
    println!("cargo:rerun-if-changed={mbedtls}");
}
