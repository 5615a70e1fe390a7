//! Arithmetic on bytes (`BITS` 8) and words (`BITS` 16).
//!
//! Each function gives its result and the flag byte that an odd code sets. A word is worked out in
//! one step; its flags are those of the second of the two cycles. The byte of the first cycle never
//! depends on the operands' other bytes.

pub(crate) const N: u8 = 0x80;
pub(crate) const Z: u8 = 0x40;
pub(crate) const V: u8 = 0x20;
pub(crate) const C: u8 = 0x10;
pub(crate) const NB: u8 = 0x08;
pub(crate) const ZB: u8 = 0x04;
pub(crate) const C4: u8 = 0x02;
pub(crate) const C8: u8 = 0x01;

/// NB ZB C4 C8.
pub(crate) const STATUS: u8 = NB | ZB | C4 | C8;

/// The bit at this position as 0 or 1.
#[inline]
fn bit(value: u32, position: u32) -> u8 {
    (value >> position) as u8 & 1
}

/// N and NB from the bit at this position, Z and ZB from the whole value.
#[inline]
fn signs(value: u32, position: u32) -> u8 {
    (bit(value, position) * (N | NB)) | (u8::from(value == 0) * (Z | ZB))
}

/// p + q + carry.
#[inline]
pub(crate) fn add<const BITS: u32>(p: u32, q: u32, carry: u32) -> (u32, u8) {
    let sum = p + q + carry;
    let value = sum & ((1 << BITS) - 1);
    // Bit i is the carry that enters position i.
    let carries = p ^ q ^ sum;
    let c8 = bit(carries, BITS);
    let flags = signs(value, BITS - 1)
        | ((bit(carries, BITS - 1) ^ c8) * V)
        | (c8 * (C | C8))
        | (bit(carries, BITS - 4) * C4);
    (value, flags)
}

/// p - q, where a carry of 0 takes one more away. C is the borrow, C8 is not.
#[inline]
pub(crate) fn subtract<const BITS: u32>(p: u32, q: u32, carry: u32) -> (u32, u8) {
    let (value, flags) = add::<BITS>(p, (1 << BITS) - 1 - q, carry);
    (value, flags ^ C)
}

/// A moved, logical or input value; `flags` are those before it.
#[inline]
pub(crate) fn logical<const BITS: u32>(value: u32, flags: u8) -> (u32, u8) {
    (value, signs(value, BITS - 1) | flags & (C | C4 | C8))
}

/// The ones complement.
#[inline]
pub(crate) fn complement<const BITS: u32>(p: u32) -> (u32, u8) {
    let value = (1 << BITS) - 1 - p;
    (value, signs(value, BITS - 1) | C)
}

/// One place to the left, `carry` coming in.
#[inline]
pub(crate) fn shift_left<const BITS: u32>(p: u32, carry: u32) -> (u32, u8) {
    let value = (p << 1 | carry) & ((1 << BITS) - 1);
    let (into, out) = (bit(p, BITS - 2), bit(p, BITS - 1));
    // 02, L2: V is the carry into the top position differing from the carry out of it.
    let carries = ((into ^ out) * V) | (out * (C | C8)) | (bit(p, BITS - 5) * C4);
    (value, signs(value, BITS - 1) | carries)
}

/// One place to the right, `carry` coming in. The low byte comes last and gives N and NB.
#[inline]
pub(crate) fn shift_right<const BITS: u32>(p: u32, carry: u32) -> (u32, u8) {
    let value = p >> 1 | carry << (BITS - 1);
    (value, signs(value, 7) | (bit(p, 0) * (C | C8)))
}
