#[path = "../archive.rs"]
mod archive;

fn main() {
    archive::find("firmware", "FIRMWARE_LIB_DIR");
}
