mod proved;

fn main() {
    let archive = proved::link("host", "JAATURBAL_ARCHIVE");
    // For the test that links it into a C program.
    println!("cargo::rustc-env=JAATURBAL_LINKED={}", archive.display());
}
