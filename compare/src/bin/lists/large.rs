//! The largest inputs and outputs.

use super::stored::Case;

/// Every position has an instruction of three bytes with the longest line, and three overlaps, but at the
/// ends; positions from 71 on are named by the branch 71 before. The last two are a Dbnz_Ri and an Addc_Ri.
pub fn cases() -> Vec<Case> {
    let nop = &format!("{}\n", "00".repeat(32));
    vec![
        Case::new("16,384 Nop", "0000\n").and(512, nop),
        Case::new("16,384 bytes of data", "\n").and(512, &nop.replace('0', "F")),
        Case::new("44 repeated is cut off", "0000\t0001\t0002\n").and(512, &nop.replace('0', "4")),
        Case::new("45 repeated and two Ret", "0000\t0001\t0002\n")
            .and(511, &nop.replace("00", "45"))
            .and(30, "45")
            .and(1, "A0A0\n"),
        Case::new(
            "the largest listing known, in the longest text",
            "0000\t0001\t0002",
        )
        .and(253, "\tFFFF")
        .and(1, "\n")
        .and(16_382, "44\n")
        .and(1, "54\n94\n"),
    ]
}
