//! The forms of instructions, in their order.

use crate::FORMS;

macro_rules! forms {
    ($($name:ident,)*) => {
        /// A form: its mnemonic, and where that has several, what the operand that tells them apart is.
        #[allow(non_camel_case_types)]
        #[derive(Clone, Copy, PartialEq, Eq, Hash, Debug)]
        #[repr(u8)]
        pub enum Form {
            $($name,)*
        }

        impl Form {
            pub const ALL: [Form; FORMS] = [$(Form::$name,)*];

            pub fn name(self) -> &'static str {
                const NAMES: [&str; FORMS] = [$(stringify!($name),)*];
                NAMES[self as usize]
            }
        }
    };
}

forms! {
    Add_i8, Add_d9, Add_Ri, Addc_i8, Addc_d9, Addc_Ri, Sub_i8, Sub_d9, Sub_Ri, Subc_i8, Subc_d9,
    Subc_Ri, Inc_d9, Inc_Ri, Dec_d9, Dec_Ri, Mul, Div, And_i8, And_d9, And_Ri, Or_i8, Or_d9, Or_Ri,
    Xor_i8, Xor_d9, Xor_Ri, Rol, Rolc, Ror, Rorc, Ld_d9, Ld_Ri, St_d9, St_Ri, Mov_d9, Mov_Rj, Ldc,
    Push, Pop, Xch_d9, Xch_Ri, Jmp, Jmpf, Br, Brf, Bz, Bnz, Bp, Bpc, Bn, Dbnz_d9, Dbnz_Ri, Be_i8,
    Be_d9, Be_Rj, Bne_i8, Bne_d9, Bne_Rj, Call, Callf, Callr, Ret, Reti, Clr1, Set1, Not1, Nop, Ldf,
    Stf,
}
