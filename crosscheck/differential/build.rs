#[path = "../archive.rs"]
mod archive;

fn main() {
    archive::link_to("differential");
}
