//! Compiles rpcgen's C for include/message.x, with the few lines that call it, and the calls by hand.

use std::env;
use std::path::PathBuf;
use std::process::Command;

fn run(program: &str, arguments: &[&str], folder: &PathBuf) {
    let status = Command::new(program).args(arguments).current_dir(folder).status();
    let well = status.map(|status| status.success()).unwrap_or(false);
    assert!(well, "{program} failed; needed: apt-get install rpcsvc-proto libtirpc-dev");
}

fn main() {
    println!("cargo:rerun-if-changed=../include/message.x");
    println!("cargo:rerun-if-changed=../include/yelansub.h");
    println!("cargo:rerun-if-changed=src/rpcgen.c");
    println!("cargo:rerun-if-changed=peer");
    let here = PathBuf::from(env::var("CARGO_MANIFEST_DIR").expect("cargo sets this"));
    let out = PathBuf::from(env::var("OUT_DIR").expect("cargo sets this"));
    std::fs::copy(here.join("../include/message.x"), out.join("message.x")).expect("message.x");
    std::fs::copy(here.join("src/rpcgen.c"), out.join("rpcgen.c")).expect("rpcgen.c");
    for file in ["message.h", "message_xdr.c"] {
        let _ = std::fs::remove_file(out.join(file));
    }
    run("rpcgen", &["-h", "-o", "message.h", "message.x"], &out);
    run("rpcgen", &["-c", "-o", "message_xdr.c", "message.x"], &out);
    for name in ["message_xdr", "rpcgen"] {
        let (source, object) = (format!("{name}.c"), format!("{name}.o"));
        let flags = ["-std=gnu11", "-O3", "-fPIC", "-w", "-I/usr/include/tirpc", "-c"];
        run("gcc", &[&flags[..], &["-o", &object, &source]].concat(), &out);
    }
    run("ar", &["rcs", "libmessage_xdr.a", "message_xdr.o", "rpcgen.o"], &out);
    let object = out.join("peer.o");
    let flags = ["-std=c11", "-O3", "-fPIC", "-I../include", "-c", "peer/peer.c", "-o"];
    run("gcc", &[&flags[..], &[object.to_str().expect("UTF-8")]].concat(), &here);
    run("ar", &["rcs", "libpeer.a", "peer.o"], &out);
    println!("cargo:rustc-link-search=native={}", out.display());
    println!("cargo:rustc-link-lib=static=peer");
    println!("cargo:rustc-link-lib=static=message_xdr");
    println!("cargo:rustc-link-lib=dylib=tirpc");
}
