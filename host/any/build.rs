#[path = "../rust/proved.rs"]
mod proved;

fn main() {
    proved::link("any", "JAATURBAL_ANY");
}
