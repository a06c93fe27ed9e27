//! The original's disasm.rs, with a module inside it that can see what is private there.

/// Takes the place of the standard macro in the original's text: it writes a line for every target
/// outside the image that it meets, which in a comparison would be millions.
macro_rules! eprintln {
    ($($part:expr),*) => {{ $(let _ = &$part;)* }};
}

include!(concat!(env!("WATERBEAR_SRC"), "/src/disasm.rs"));

#[warn(warnings)]
pub mod probe;
