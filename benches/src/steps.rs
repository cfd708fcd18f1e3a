//! A book's steps: the ops and relations by name, and a step's eight bytes.

pub const MARK: u8 = 0;
pub const SET: u8 = 1;
pub const ADD: u8 = 2;
pub const TAKE: u8 = 3;
pub const SIGNAL: u8 = 4;
pub const SIGNAL_NUMBER: u8 = 5;
pub const REST: u8 = 6;
pub const REST_FOR: u8 = 7;
pub const WAIT: u8 = 8;
pub const WAIT_FOR: u8 = 9;
pub const JOIN: u8 = 10;
pub const JOIN_FOR: u8 = 11;
pub const READ: u8 = 12;
pub const START: u8 = 13;
pub const STOP: u8 = 14;
pub const SUSPEND: u8 = 15;
pub const RESUME: u8 = 16;
pub const IF: u8 = 17;
pub const ELSE: u8 = 18;
pub const WHILE: u8 = 19;
pub const END: u8 = 20;

/// How many ops there are.
pub const OPS: usize = 21;

/// The relations of an if or a while: counter against n.
pub const EQUAL: u16 = 0;
pub const LESS: u16 = 1;
pub const GREATER: u16 = 2;

/// How many relations there are.
pub const RELATIONS: u16 = 3;

/// How deep blocks may nest.
pub const DEEPEST: usize = 16;

/// The bytes of a step.
pub const STEP: usize = 8;

/// A step: op, a, b (16 bits) and n (32 bits, two's complement), little-endian.
pub type Step = [u8; STEP];

pub fn step(op: u8, a: u8, b: u16, n: i32) -> Step {
    let ([b0, b1], [n0, n1, n2, n3]) = (b.to_le_bytes(), n.to_le_bytes());
    [op, a, b0, b1, n0, n1, n2, n3]
}

/// A step without fields.
pub fn bare(op: u8) -> Step {
    step(op, 0, 0, 0)
}

/// The fields a, b and n of a step.
pub fn fields(step: &Step) -> (usize, usize, i32) {
    let [_, a, b0, b1, n @ ..] = *step;
    let b = u16::from_le_bytes([b0, b1]);
    (a.into(), b.into(), i32::from_le_bytes(n))
}
