//! A text with each of its bytes changed, taken out and put in.

use super::Cases;

const TEXTS: [&[u8]; 3] = [
    b"003 CW 4 2 ODD RR U5\n7ff jmp 7FF rni\n",
    b"1 RFS 3Ff\n2 LL fF 2 rr\n",
    b" 0  ISW a 1 odd  uF \n9 nop",
];

pub fn all(cases: &mut Cases<'_>) {
    for text in TEXTS {
        for at in 0..=text.len() {
            let (before, behind) = text.split_at(at);
            cases.text(before);
            cases.text(behind);
            for byte in 0..=255 {
                cases.text([before, &[byte], behind].concat());
                if let Some((_, behind)) = behind.split_first() {
                    cases.text([before, &[byte], behind].concat());
                }
            }
            for to in at..=text.len() {
                cases.text([before, &text[to..]].concat());
                cases.text([&text[..to], behind].concat());
            }
        }
    }
}
