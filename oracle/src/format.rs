//! Words of a script: numbers, nodes, methods, lists. A reader answers None for a word of another form.

use crate::device::{Discretisation, NodeId};
use crate::tran::IntegratorMode;

/// A line has at most this many bytes.
pub const LONGEST_LINE: usize = 65_536;

/// A list has at most this many numbers.
pub const LONGEST_LIST: usize = 4_096;

pub trait Written {
    fn written(&self) -> String;
}

impl Written for f64 {
    fn written(&self) -> String {
        match self.is_nan() {
            true => "nan".to_string(),
            false => format!("{:016x}", self.to_bits()),
        }
    }
}

impl Written for Option<f64> {
    fn written(&self) -> String {
        self.map_or("none".to_string(), |x| x.written())
    }
}

impl Written for u32 {
    fn written(&self) -> String {
        self.to_string()
    }
}

impl Written for u64 {
    fn written(&self) -> String {
        self.to_string()
    }
}

impl Written for NodeId {
    fn written(&self) -> String {
        self.map_or("-".to_string(), |node| node.to_string())
    }
}

impl Written for Option<Discretisation> {
    fn written(&self) -> String {
        let Some(d) = self else { return "none".to_string() };
        let h = d.h.written();
        match (d.mode, d.gear2_h_prev) {
            (IntegratorMode::BackwardEuler, None) => format!("euler:{h}"),
            (IntegratorMode::Trapezoidal, None) => format!("trap:{h}"),
            (IntegratorMode::Gear, Some(before)) => format!("gear:{h}:{}", before.written()),
            other => unreachable!("no script hands {other:?}"),
        }
    }
}

impl<T: Written> Written for [T] {
    fn written(&self) -> String {
        if self.is_empty() {
            return "-".to_string();
        }
        self.iter().map(Written::written).collect::<Vec<_>>().join(",")
    }
}

/// The words of a line: its runs of bytes other than spaces.
pub fn words(line: &[u8]) -> Vec<&[u8]> {
    line.split(|byte| *byte == b' ').filter(|word| !word.is_empty()).collect()
}

fn digit(byte: u8) -> Option<u8> {
    match byte {
        b'0'..=b'9' => Some(byte - b'0'),
        b'a'..=b'f' => Some(byte - b'a' + 10),
        _ => None,
    }
}

pub fn number(word: &[u8]) -> Option<f64> {
    if word == b"nan" {
        return Some(f64::NAN);
    }
    if word.len() != 16 {
        return None;
    }
    let bits = word.iter().try_fold(0u64, |bits, byte| Some(bits << 4 | u64::from(digit(*byte)?)))?;
    Some(f64::from_bits(bits))
}

/// A whole number of 64 bits in decimal digits, with no sign.
pub fn whole(word: &[u8]) -> Option<u64> {
    if word.is_empty() {
        return None;
    }
    word.iter().try_fold(0u64, |n, byte| {
        let d = byte.is_ascii_digit().then(|| u64::from(byte - b'0'))?;
        n.checked_mul(10)?.checked_add(d)
    })
}

pub fn column(word: &[u8]) -> Option<u32> {
    u32::try_from(whole(word)?).ok()
}

pub fn node(word: &[u8]) -> Option<NodeId> {
    match word {
        b"-" => Some(None),
        _ => Some(Some(whole(word)? as usize)),
    }
}

/// The parts of a word on either side of its first `mark`.
pub fn split_at_mark(word: &[u8], mark: u8) -> Option<(&[u8], &[u8])> {
    let at = word.iter().position(|byte| *byte == mark)?;
    Some((&word[..at], &word[at + 1..]))
}

/// Offset and length.
pub fn pair(word: &[u8]) -> Option<(u64, u64)> {
    let (offset, length) = split_at_mark(word, b':')?;
    Some((whole(offset)?, whole(length)?))
}

pub fn list<T>(word: &[u8], one: fn(&[u8]) -> Option<T>) -> Option<Vec<T>> {
    if word == b"-" {
        return Some(Vec::new());
    }
    let items: Vec<T> = word.split(|byte| *byte == b',').map(one).collect::<Option<_>>()?;
    (items.len() <= LONGEST_LIST).then_some(items)
}

/// Bytes, two digits each.
pub fn bytes(word: &[u8]) -> Option<Vec<u8>> {
    if word == b"-" {
        return Some(Vec::new());
    }
    if word.len() % 2 != 0 {
        return None;
    }
    word.chunks(2).map(|two| Some(digit(two[0])? << 4 | digit(two[1])?)).collect()
}

/// `none`, `euler:H`, `trap:H` or `gear:H:HPREV`.
pub fn method(word: &[u8]) -> Option<Option<Discretisation>> {
    if word == b"none" {
        return Some(None);
    }
    let (name, steps) = split_at_mark(word, b':')?;
    let one_step = |mode| Some(Discretisation { mode, h: number(steps)?, gear2_h_prev: None });
    let made = match name {
        b"euler" => one_step(IntegratorMode::BackwardEuler)?,
        b"trap" => one_step(IntegratorMode::Trapezoidal)?,
        b"gear" => {
            let (h, before) = split_at_mark(steps, b':')?;
            Discretisation { mode: IntegratorMode::Gear, h: number(h)?, gear2_h_prev: Some(number(before)?) }
        }
        _ => return None,
    };
    Some(Some(made))
}
