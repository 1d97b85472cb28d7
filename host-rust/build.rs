//! Links the static libraries that `src/calls.rs` declares.

mod staticlib;

fn main() {
    staticlib::link(&["host", "host_tables", "host_lines"]);
}
