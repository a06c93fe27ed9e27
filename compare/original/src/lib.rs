//! The original, compiled unchanged from the folder that the environment names as WATERBEAR_SRC.
//! Its files are taken in where they stand; none is copied. What they name and we do not have, or do
//! not need whole, is stood in for: the crates under stand-ins/, and the module `lexer`.

/// A module whose text is one file of the original.
macro_rules! original {
    ($name:ident, $file:literal) => {
        #[allow(warnings, clippy::all)]
        pub mod $name {
            include!(concat!(env!("WATERBEAR_SRC"), $file));
        }
    };
}

original!(ast, "/src/ast.rs");
original!(env, "/src/env.rs");
original!(expression, "/src/expression.rs");
original!(files, "/src/files.rs");
original!(instruction, "/src/instruction.rs");
original!(location, "/src/location.rs");
pub mod budget;
#[allow(warnings, clippy::all)]
pub mod disasm;

pub use expression::EvaluationError;

/// A stand-in for the original's lexer.rs, of which expression.rs names this one type.
pub mod lexer {
    pub enum Radix {
        Decimal,
        Hex,
        Binary,
        Octal,
    }
}

/// The label under which `no_names` can be evaluated.
pub const NO_LABEL: &str = "";

/// An environment in which no name has a value: all that plain numbers need.
pub fn no_names() -> env::Names {
    env::Names {
        globals: Default::default(),
        locals: [(NO_LABEL.to_string(), Default::default())].into(),
        internals: Default::default(),
    }
}
