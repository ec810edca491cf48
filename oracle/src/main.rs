//! What the published Rust answers to a script of calls, behind the refusal table of document 01.
//!
//! `oracle < script` writes an answer line for each command; `oracle curve < lines` does what the program `curve` does. build.rs says
//! how the Rust is put together.

include!(concat!(env!("OUT_DIR"), "/modules.rs"));

mod arithmetic;
mod bridge;
mod curve;
mod format;
mod functions;
mod layout;
mod rows;
mod runner;

use std::io::{BufRead, Write};
use std::panic::{catch_unwind, AssertUnwindSafe};

use bridge::PLACES;
use format::{bytes, column, list, method, node, number, pair, split_at_mark, whole};
use layout::Lent;
use rows::{Keys, Matrix};
use runner::{Answer, Conditions, Runner};

/// Keys of the plain form, end to end, with room for every place.
fn plain_keys(words: &[&[u8]]) -> Option<Keys> {
    if words.len() > format::LONGEST_LIST {
        return None;
    }
    let mut keys = Keys { bytes: Vec::new(), pairs: Vec::new(), values: Vec::new(), room: words.len() as u64 };
    for word in words {
        let (name, value) = split_at_mark(word, b'=')?;
        keys.pairs.push((keys.bytes.len() as u64, name.len() as u64));
        keys.bytes.extend_from_slice(name);
        keys.values.push(number(value)?);
    }
    Some(keys)
}

fn raw_keys(words: &[&[u8]]) -> Option<Keys> {
    let [room, key_bytes, pairs, values] = words else { return None };
    Some(Keys {
        room: whole(room)?,
        bytes: bytes(key_bytes)?,
        pairs: list(pairs, pair)?,
        values: list(values, number)?,
    })
}

fn one_of(word: &[u8], yes: &[u8], no: &[u8]) -> Option<bool> {
    if word == yes {
        return Some(true);
    }
    (word == no).then_some(false)
}

/// None for a direct-current load.
fn load_kind(word: &[u8]) -> Option<Option<f64>> {
    if word == b"dc" {
        return Some(None);
    }
    Some(Some(number(word.strip_prefix(b"tran:")?)?))
}

/// The words of a load of several devices: as many as can be placed, or one more.
fn bridge_load(words: &[&[u8]]) -> Option<bridge::Load> {
    let [count, runs, kind, rhs, columns, rows, values] = words else { return None };
    Some(bridge::Load {
        count: whole(count).filter(|n| *n <= PLACES as u64 + 1)? as usize,
        runs: list(runs, pair)?,
        alpha: load_kind(kind)?,
        rhs: list(rhs, number)?,
        matrix: Matrix { columns: list(columns, column)?, rows: list(rows, pair)?, values: list(values, number)? },
    })
}

/// The answer of a command, or None where it is not understood.
fn answer(runner: &mut Runner, words: &[&[u8]]) -> Option<String> {
    let made: Answer = match words {
        [b"card", polarity, keys @ ..] => runner.card(one_of(polarity, b"p", b"n")?, &plain_keys(keys)?),
        [b"cardraw", polarity, keys @ ..] => runner.card(one_of(polarity, b"p", b"n")?, &raw_keys(keys)?),
        [b"geometry", keys @ ..] => runner.geometry(&plain_keys(keys)?),
        [b"geometryraw", keys @ ..] => runner.geometry(&raw_keys(keys)?),
        [b"scale", kelvin] => runner.scale(number(kelvin)?),
        [b"bind", d, g, s, b, first] => runner.bind([node(d)?, node(g)?, node(s)?, node(b)?], whole(first)?),
        [b"extra"] => runner.extra(),
        [b"cells", columns, offsets, lengths] => {
            let lent =
                Lent { columns: list(columns, column)?, offsets: list(offsets, whole)?, lengths: list(lengths, whole)? };
            runner.lay_out(lent)
        }
        [b"eval", kind, kelvin, gmin, limiter, how, x] => {
            let conditions = Conditions {
                transient: one_of(kind, b"tran", b"dc")?,
                kelvin: number(kelvin)?,
                gmin: number(gmin)?,
                limiter: one_of(limiter, b"lim", b"nolim")?,
                method: method(how)?,
            };
            runner.eval(conditions, &list(x, number)?)
        }
        [b"load", kind, rhs, columns, rows, values] => {
            let matrix =
                Matrix { columns: list(columns, column)?, rows: list(rows, pair)?, values: list(values, number)? };
            runner.load(load_kind(kind)?, list(rhs, number)?, matrix)
        }
        [b"resolve", columns, rows] => runner.resolve(list(columns, column)?, list(rows, pair)?),
        [b"loadresolved", kind, rhs, values] => {
            runner.load_resolved(load_kind(kind)?, list(rhs, number)?, list(values, number)?)?
        }
        [b"place", at] => runner.place(whole(at).filter(|n| *n < PLACES as u64)? as usize),
        [b"loadblock", block, words @ ..] => runner.bank.load(Some(whole(block)?), bridge_load(words)?),
        [b"loadbridge", words @ ..] => runner.bank.load(None, bridge_load(words)?),
        [b"commit", x] => runner.commit(&list(x, number)?),
        [b"noise", kelvin, freq] => runner.noise(number(kelvin)?, number(freq)?),
        [b"reactances"] => runner.reactances(),
        [b"state"] => Ok(runner.state()),
        [b"reset"] => {
            *runner = Runner::new();
            Ok("reset".to_string())
        }
        [b"call", name, arguments @ ..] => return functions::call(name, arguments),
        _ => return None,
    };
    Some(made.unwrap_or_else(|row| format!("refused {row}")))
}

fn script(input: impl BufRead, out: &mut impl Write) -> std::io::Result<()> {
    let mut runner = Runner::new();
    for (at, line) in input.split(b'\n').enumerate() {
        let line = line?;
        let words = format::words(&line);
        let too_long = line.len() > format::LONGEST_LINE;
        if !too_long && (words.is_empty() || line.starts_with(b"#")) {
            continue;
        }
        let command = AssertUnwindSafe(|| if too_long { None } else { answer(&mut runner, &words) });
        let Ok(text) = catch_unwind(command) else {
            writeln!(out, "panic")?;
            out.flush()?;
            eprintln!("line {}: {}", at + 1, String::from_utf8_lossy(&line));
            std::process::exit(101);
        };
        writeln!(out, "{}", text.as_deref().unwrap_or("bad"))?;
    }
    Ok(())
}

fn main() -> std::io::Result<()> {
    let input = std::io::stdin().lock();
    let mut out = std::io::BufWriter::new(std::io::stdout().lock());
    match std::env::args().nth(1).as_deref() {
        None => script(input, &mut out)?,
        Some("curve") => curve::run(input, &mut out)?,
        Some(other) => panic!("no such word: {other}; see main.rs"),
    }
    out.flush()
}
