// Links the static library of crate image; tools/staticlib.rs says how it is found or made. Its path is handed on to
// the test that compiles the C example.

#[path = "../tools/staticlib.rs"]
mod staticlib;

fn main() {
    let library = staticlib::link(&["image"]).join("libimage.a");
    println!("cargo::rustc-env=DBCHOCO_LIBRARY={}", library.display());
}
