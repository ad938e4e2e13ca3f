#[path = "../archive.rs"]
mod archive;

fn main() {
    archive::find("records", "RECORDS_LIB_DIR");
}
