//! The published Rust of `Mosfet1`, assembled by assemble.rs: with std's functions in `original`, with the port's in `with_port`.
include!(concat!(env!("OUT_DIR"), "/generated.rs"));

/// Where the redirected functions go in `with_port`.
#[allow(dead_code)]
mod port {
    extern "C" {
        fn elementary_exp(x: f64) -> f64;
        fn elementary_ln(x: f64) -> f64;
        fn elementary_ln_1p(x: f64) -> f64;
        fn elementary_pow(x: f64, e: f64) -> f64;
    }

    pub trait PortMath {
        fn port_exp(self) -> f64;
        fn port_ln(self) -> f64;
        fn port_ln_1p(self) -> f64;
        fn port_pow(self, e: f64) -> f64;
    }

    // SAFETY: functions of numbers alone.
    impl PortMath for f64 {
        fn port_exp(self) -> f64 {
            unsafe { elementary_exp(self) }
        }
        fn port_ln(self) -> f64 {
            unsafe { elementary_ln(self) }
        }
        fn port_ln_1p(self) -> f64 {
            unsafe { elementary_ln_1p(self) }
        }
        fn port_pow(self, e: f64) -> f64 {
            unsafe { elementary_pow(self, e) }
        }
    }
}
