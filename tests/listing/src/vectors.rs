//! Vectors worked out by hand, by the sentences of the paper.

use crate::call::{Call, Function};
use crate::cases::Case;
use crate::rules::{bytes, Refusal};

/// Texts and the words that they are assembled to.
const WORDS: &[(&str, &[u32])] = &[
    // Lines and pieces.
    ("", &[]),
    ("0 NOP", &[0xFF00]),
    ("0 NOP\n", &[0xFF00]),
    ("  000   NOP  \n", &[0xFF00]),
    (
        "003 CW 4 2 ODD RR U5\n",
        &[0xFF00, 0xFF00, 0xFF00, 0x15_B742],
    ),
    // Numbers, mnemonics and marks in either case.
    ("0 JMP 0000000000000000000007FF", &[0x07FF]),
    ("0000000000 jMp 7fF", &[0x07FF]),
    ("0 cW 4 2 oDd rR u5 rNi", &[0x17_B742]),
    // Operands in the order of the summary.
    ("0 JMP 123", &[0x0123]),
    ("0 JZF 10", &[0x1810]),
    ("0 JNT FF", &[0x1FFF]),
    ("0 LL FF 2", &[0x6FF2]),
    ("0 AL 12 3", &[0x2123]),
    ("0 AB 3 2", &[0xA032]),
    ("0 LCF 5 3", &[0x7353]),
    ("0 DB1 1 2\n1 DW1 4 6", &[0xBC12, 0xBE46]),
    // The don't-care operand.
    ("0 RFS", &[0x0800]),
    ("0 RFS 7FF", &[0x0FFF]),
    ("0 RI 5", &[0x7050]),
    ("0 RI 5 3", &[0x7053]),
    ("0 SI 7 1", &[0x7171]),
    ("0 CCF 3", &[0x7203]),
    ("0 CCF 3 5", &[0x7253]),
    ("0 LGL 4 6", &[0x7564]),
    ("0 CIB 2 1", &[0x7612]),
    ("0 CDB 2 F", &[0x77F2]),
    ("0 ISW 2 4", &[0xE642]),
    ("0 RTSR 9C", &[0x749C]),
    ("0 NOP AB RR", &[0x1_FFAB]),
    ("0 NOP 0\n1 RFS 000\n2 CCF 3 0", &[0xFF00, 0x0800, 0x7203]),
    // Range is the width of the field; the engine refuses these, not the assembler.
    ("0 IB F 2", &[0xE0F2]),
    ("0 ISB 4 2", &[0xE442]),
    ("0 AW 3 2", &[0xA232]),
    ("0 CAD 2 2", &[0xAC22]),
    // Marks in any order.
    ("0 NOP U5 RNI RR", &[0x17_FF00]),
    ("0 AB 3 2 ODD", &[0xA132]),
    ("0 AB 3 2 RR", &[0x1_A032]),
    ("0 AB 3 2 RNI", &[0x2_A032]),
    ("0 AB 3 2 U0", &[0xA032]),
    ("0 AB 3 2 UF ODD", &[0x3C_A132]),
    // The codes that have an odd twin, at the borders of their ranges.
    (
        "0 MB 2 2 ODD\n1 AWC 2 2 ODD\n2 CAWI 2 2 ODD",
        &[0x8122, 0xAB22, 0xAF22],
    ),
    (
        "0 SB 2 2 ODD\n1 NCW 2 2 ODD\n2 SRBC 2 2 ODD",
        &[0xB122, 0xD322, 0xD922],
    ),
    (
        "0 ISW 2 ODD\n1 MI 2 2 ODD\n2 LTR 2 2 ODD",
        &[0xE702, 0xED22, 0xEF22],
    ),
    // Gaps, also before the first line.
    ("2 JMP 1", &[0xFF00, 0xFF00, 0x0001]),
    ("0 JMP 1\n3 JMP 2", &[0x0001, 0xFF00, 0xFF00, 0x0002]),
    ("00007fF NOP", &[0xFF00; 2048]),
];

/// Texts that are refused, with the answer and the line.
const REFUSED: &[(&str, u32, u32)] = &[
    // A line without pieces or with one has no mnemonic; only byte 32 is a space.
    ("\n", 10, 1),
    (" ", 10, 1),
    ("0 NOP\n\n", 10, 2),
    ("0 NOP\n \n1 NOP\n", 10, 2),
    ("0", 10, 1),
    ("NOP", 10, 1),
    ("0\tNOP", 10, 1),
    ("0 NOP\r\n", 10, 1),
    ("0 SWB 1 2", 10, 1),
    ("0 DBI 1 2", 10, 1),
    ("0 NOP ;", 11, 1),
    // Operands that are missing, extra, out of range or no numbers.
    ("0 JMP", 11, 1),
    ("0 AB 3", 11, 1),
    ("0 AB 3 RR", 11, 1),
    ("0 AB 3 2 0", 11, 1),
    ("0 JMP 1 0", 11, 1),
    ("0 LCF 5 3 0", 11, 1),
    ("0 RI", 11, 1),
    ("0 RI 5 3 0", 11, 1),
    ("0 NOP 0 0", 11, 1),
    ("0 JMP 800", 11, 1),
    ("0 JZF 100", 11, 1),
    ("0 LL 100 2", 11, 1),
    ("0 LL FF 10", 11, 1),
    ("0 AB 10 0", 11, 1),
    ("0 AB 0 10", 11, 1),
    ("0 RFS 800", 11, 1),
    ("0 RI 5 10", 11, 1),
    ("0 NOP 100", 11, 1),
    ("0 JMP 100000000", 11, 1),
    ("0 JMP 10000000000000000", 11, 1),
    ("0 JMP G", 11, 1),
    ("0 JMP 0x1", 11, 1),
    // Marks: each once, U with one digit, ODD with a twin, behind the operands.
    ("0 NOP U", 11, 1),
    ("0 NOP U05", 11, 1),
    ("0 NOP UG", 11, 1),
    ("0 NOP RR RR", 11, 1),
    ("0 NOP U5 U5", 11, 1),
    ("0 NOP U0 U0", 11, 1),
    ("0 NOP U0 U5", 11, 1),
    ("0 NOP U5 RR U0", 11, 1),
    ("0 AB 3 2 ODD ODD", 11, 1),
    ("0 AB 3 ODD 2", 11, 1),
    ("0 NOP RR 0", 11, 1),
    ("0 CAD 2 2 ODD", 11, 1),
    ("0 RIB1 2 2 ODD", 11, 1),
    ("0 OS 2 2 ODD", 11, 1),
    ("0 CDB 2 ODD", 11, 1),
    ("0 LL 1 2 ODD", 11, 1),
    ("0 JMP 1 ODD", 11, 1),
    ("0 NOP ODD", 11, 1),
    // Addresses.
    ("800 NOP", 12, 1),
    ("100000000 NOP", 12, 1),
    ("10000000000000000 NOP", 12, 1),
    ("0 NOP\n0 NOP", 12, 2),
    ("1 NOP\n0 NOP", 12, 2),
    ("7FF NOP\n800 NOP", 12, 2),
    ("5 NOP\nG NOP", 12, 2),
    // The first bad line decides, and on it the first of 10, 11, 12.
    ("800 SWB 1 10", 10, 1),
    ("800 SW 1 10", 11, 1),
    ("800 SW 1 1", 12, 1),
    ("0 NOP\nX X\n0 NOP\n", 10, 2),
    ("0 NOP\n1 NOP 100\n2 XX\n", 11, 2),
    ("0 NOP\n0 NOP\n2 XX\n", 12, 2),
];

/// Words and how they are listed.
const SPELLED: &[(&[u32], &str)] = &[
    (&[], ""),
    (&[0x0001], "000 JMP 001\n"),
    (&[0x1801], "000 JZF 01\n"),
    (&[0x6FF2, 0x600A], "000 LL FF 2\n001 LL 00 A\n"),
    (&[0xA132], "000 AB 3 2 ODD\n"),
    (&[0xB642, 0xB742], "000 CW 4 2\n001 CW 4 2 ODD\n"),
    (&[0xBC12, 0xBF12], "000 DB1 1 2\n001 DW1 1 2 ODD\n"),
    (&[0x8E24], "000 SLW 2 4\n"),
    (&[0xAC22], "000 CAD 2 2\n"),
    // The don't-care operand only when it isn't zero, with the digits of its width.
    (
        &[0x0800, 0x0801, 0x0FFF],
        "000 RFS\n001 RFS 001\n002 RFS 7FF\n",
    ),
    (&[0x7400, 0x7401], "000 RTSR\n001 RTSR 01\n"),
    (&[0xFF00, 0xFF0A], "000 NOP\n001 NOP 0A\n"),
    (&[0x7050, 0x7053], "000 RI 5\n001 RI 5 3\n"),
    (&[0x7203, 0x7253], "000 CCF 3\n001 CCF 3 5\n"),
    // All marks, in their order.
    (&[0x3F_E7A4], "000 ISW 4 A ODD RR RNI UF\n"),
    (
        &[0x1_FF00, 0x2_FF00, 0x4_FF00],
        "000 NOP RR\n001 NOP RNI\n002 NOP U1\n",
    ),
];

/// Words that are not listed, with the answer and the address.
const NOT_LISTED: &[(&[u32], u32, u32)] = &[
    (&[0x7800], 6, 0),
    (&[0xFF00, 0x7F12, 0xAD22], 6, 1),
    (&[0xAC22, 0xAD22], 6, 1),
    (&[0xD3FF, 0xD8FF, 0xD4FF], 6, 2),
    (&[0xD7FF], 6, 0),
    (&[0xE7FF, 0xECFF, 0xE8FF], 6, 2),
    (&[0x3F_EBFF], 6, 0),
    (&[0x40_FF00], 2, 0),
    (&[0xFF00, 0x8000_FF00], 2, 1),
    (&[0x7800, 0x40_0000], 2, 1),
    (&[0xFF00; 2049], 2, 2048),
    (&[0x7800; 2049], 2, 2048),
];

/// All of them.
pub fn all(to: &mut dyn FnMut(Case)) {
    use Function::{Assemble, List};
    for (text, words) in WORDS {
        to(case(Assemble, text.as_bytes(), 9000, Ok(bytes(words))));
    }
    for (text, answer, at) in REFUSED {
        let (answer, at) = (*answer, *at);
        to(case(
            Assemble,
            text.as_bytes(),
            60,
            Err(Refusal { answer, at }),
        ));
    }
    for (words, text) in SPELLED {
        to(case(List, &bytes(words), 100, Ok(text.as_bytes().to_vec())));
    }
    for (words, answer, at) in NOT_LISTED {
        let (answer, at) = (*answer, *at);
        to(case(List, &bytes(words), 100, Err(Refusal { answer, at })));
    }
    borders(to);
}

/// Lengths of lists, and room.
fn borders(to: &mut dyn FnMut(Case)) {
    use Function::{Assemble, List};
    let nop = bytes(&[0xFF00]);
    let listed = b"000 NOP\n".to_vec();
    for length in 1..4 {
        let refusal = Refusal {
            answer: 2,
            at: 2048,
        };
        to(case(List, &nop[..length], 100, Err(refusal)));
    }
    let mut words = [0xFF00; 2049];
    words[2048] = 1 << 22;
    let refusal = Refusal {
        answer: 2,
        at: 2048,
    };
    to(case(List, &bytes(&words), 0, Err(refusal)));
    words[5] = 1 << 22;
    let refusal = Refusal { answer: 2, at: 5 };
    to(case(List, &bytes(&words), 0, Err(refusal)));
    // 27 comes after all others and says the bytes that are needed.
    for room in 0..10 {
        to(case(Assemble, b"0 NOP", room, Ok(nop.clone())));
        to(case(List, &nop, room, Ok(listed.clone())));
        to(case(
            Assemble,
            b"0 NOPE",
            room,
            Err(Refusal { answer: 10, at: 1 }),
        ));
        to(case(
            List,
            &bytes(&[0x7800]),
            room,
            Err(Refusal { answer: 6, at: 0 }),
        ));
    }
}

fn case(function: Function, input: &[u8], room: usize, due: Result<Vec<u8>, Refusal>) -> Case {
    let (input, output) = (input.to_vec(), vec![0x5A; room]);
    let call = Call {
        function,
        input,
        output,
    };
    let expected = call.leaving(due);
    Case { call, expected }
}
