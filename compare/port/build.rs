//! Links the static library of the varint calls.

#[path = "../../host-rust/staticlib.rs"]
mod staticlib;

fn main() {
    staticlib::link(&["host_leaves"]);
}
