//! The elementary functions against the C library's.
use crate::best;
use crate::cases::uniform;
use std::hint::black_box;

extern "C" {
    fn elementary_sqrt(x: f64) -> f64;
    fn elementary_exp(x: f64) -> f64;
    fn elementary_ln(x: f64) -> f64;
    fn elementary_ln_1p(x: f64) -> f64;
    fn elementary_pow(x: f64, e: f64) -> f64;
}

fn one(xs: &[f64], f: impl Fn(f64) -> f64) -> f64 {
    best(200, xs.len(), || {
        for x in xs {
            black_box(f(black_box(*x)));
        }
    })
}

fn two(xs: &[(f64, f64)], f: impl Fn(f64, f64) -> f64) -> f64 {
    best(200, xs.len(), || {
        for (x, e) in xs {
            black_box(f(black_box(*x), black_box(*e)));
        }
    })
}

pub fn table() {
    let mut next = uniform(7);
    let mut many = |f: fn(f64) -> f64| (0..4096).map(|_| f(next())).collect::<Vec<f64>>();
    let wide = many(|u| (u * 40.0 - 20.0).exp());
    let line = many(|u| u * 80.0 - 40.0);
    let small = many(|u| (u * 20.0 - 15.0).exp());
    let bases = many(|u| (u * 8.0 - 4.0).exp());
    let exponents = many(|u| u * 4.0 - 2.0);
    let powers: Vec<(f64, f64)> = bases.into_iter().zip(exponents).collect();
    println!("\n| function | arguments | port, ns | C, ns | port to C |\n|---|---|---|---|---|");
    let row = |name: &str, what: &str, p: f64, c: f64| println!("| {name} | {what} | {p:.1} | {c:.1} | {:.1} |", p / c);
    // SAFETY: functions of numbers alone.
    unsafe {
        row("sqrt", "e^-20 to e^20", one(&wide, |x| elementary_sqrt(x)), one(&wide, f64::sqrt));
        row("exp", "−40 to 40", one(&line, |x| elementary_exp(x)), one(&line, f64::exp));
        row("ln", "e^-20 to e^20", one(&wide, |x| elementary_ln(x)), one(&wide, f64::ln));
        row("ln_1p", "e^-15 to e^5", one(&small, |x| elementary_ln_1p(x)), one(&small, f64::ln_1p));
        row("pow", "e^-4 to e^4, exponents −2 to 2", two(&powers, |x, e| elementary_pow(x, e)), two(&powers, f64::powf));
    }
}
