// Links the static library of crate probe; tools/staticlib.rs says how it is found or made. That of crate image comes
// with the host's crate.

#[path = "../../tools/staticlib.rs"]
mod staticlib;

fn main() {
    staticlib::link(&["probe"]);
}
