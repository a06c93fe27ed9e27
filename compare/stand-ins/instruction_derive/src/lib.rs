//! A stand-in for the crate `waterbear_instruction_derive`, whose source is not among those of the
//! original that we have.
//!
//! The derive reads the `#[instr = ".."]` patterns of the original's enum and writes the three
//! functions that the original leans on: `decode_raw`, `encode` and `size`. They are ours: they rest on
//! the patterns alone, so a comparison of decode and encode is one with the patterns as this crate
//! reads them, and one with the original's own text only past `decode_raw`.
//!
//! Beside them it writes what the comparison needs to name forms by number (`FORMS`, `WIDTHS`,
//! `form`, `operands`, `of_form`). The crate that holds the enum has a module `budget`, which
//! `decode_raw` tells of each call.

mod enumeration;
mod generate;
mod pattern;

use proc_macro::TokenStream;

#[proc_macro_derive(Instruction, attributes(instr))]
pub fn instruction(item: TokenStream) -> TokenStream {
    let forms = enumeration::read(item);
    generate::all(&forms)
        .parse()
        .expect("what generate writes is Rust")
}
