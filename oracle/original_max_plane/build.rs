//! Points the compiler at the published file that the builder gave.

fn main() {
    published_source::write_module();
}
