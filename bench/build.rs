#[path = "../host/rust/proved.rs"]
mod proved;

fn main() {
    proved::link("leaves", "JAATURBAL_LEAVES");
}
