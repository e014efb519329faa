//! The C header and its example: compiled without a warning, linked with the proved archive, and run.

use std::path::Path;
use std::process::Command;

#[test]
fn sale_in_c() {
    let host = Path::new(env!("CARGO_MANIFEST_DIR")).parent().expect("host/");
    let program = Path::new(env!("CARGO_TARGET_TMPDIR")).join("sale");
    let built = Command::new("cc")
        .args(["-std=c99", "-Wall", "-Wextra", "-Wpedantic", "-Werror", "-O2", "-I"])
        .arg(host.join("include"))
        .arg(host.join("c/sale.c"))
        .arg(env!("JAATURBAL_LINKED"))
        .arg("-o")
        .arg(&program)
        .status()
        .expect("cc, which also links Rust programs");
    assert!(built.success());
    let run = Command::new(&program).output().expect("the program just built");
    let said = "20 bids read back from region 16, edition 0, 10 pages\n\
                after release: refusal 8\n\
                region 16 opened again: edition 1\n\
                a bid for edition 0: refusal 18\n";
    assert_eq!((String::from_utf8_lossy(&run.stdout).as_ref(), run.status.success()), (said, true));
}
