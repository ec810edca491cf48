//! The port's elementary functions, which the Rust calls in place of its own.

mod library {
    extern "C" {
        pub fn elementary_exp(x: f64) -> f64;
        pub fn elementary_ln(x: f64) -> f64;
        pub fn elementary_ln_1p(x: f64) -> f64;
        pub fn elementary_pow(x: f64, y: f64) -> f64;
    }
}

pub trait PortFunctions {
    fn port_exp(self) -> f64;
    fn port_ln(self) -> f64;
    fn port_ln_1p(self) -> f64;
    fn port_powf(self, y: f64) -> f64;
}

// SAFETY: each function is a proved one of the port, takes and returns floats by value and touches nothing else.
impl PortFunctions for f64 {
    fn port_exp(self) -> f64 {
        unsafe { library::elementary_exp(self) }
    }

    fn port_ln(self) -> f64 {
        unsafe { library::elementary_ln(self) }
    }

    fn port_ln_1p(self) -> f64 {
        unsafe { library::elementary_ln_1p(self) }
    }

    fn port_powf(self, y: f64) -> f64 {
        unsafe { library::elementary_pow(self, y) }
    }
}
