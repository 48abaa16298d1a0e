//! Links target/staticlib/libmeasured.a of the repository.

fn main() {
    archive::link("measured");
}
