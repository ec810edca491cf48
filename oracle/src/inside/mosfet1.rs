//! Within mosfet1.rs: what the harness reads and writes of a device's private parts.

use super::Mosfet1;
use crate::device::NodeId;
use crate::format::Written;
use crate::mna::inside::row_and_slot;

include!(concat!(env!("OUT_DIR"), "/views.rs"));

/// What the refusals ask of a device.
pub struct View {
    /// Drain, gate, source, bulk, then the outer drain and source.
    pub nodes: [NodeId; 6],
    pub kf: f64,
    pub cox: f64,
    pub phi: f64,
    pub pb: f64,
    pub tnom: f64,
    pub rd: f64,
    pub rs: f64,
    pub has_step: bool,
    /// The Jacobian's cells.
    pub pairs: [(NodeId, NodeId); 24],
    /// The ends and the evaluated capacitance of gs, gd, gb, bs, bd.
    pub branches: [(NodeId, NodeId, f64); 5],
}

impl Mosfet1 {
    pub fn view(&self) -> View {
        let (d, g, s, b) = (self.drain, self.gate, self.source, self.bulk);
        View {
            nodes: [d, g, s, b, self.drain_ext, self.source_ext],
            kf: self.kf,
            cox: self.cox,
            phi: self.phi,
            pb: self.pb,
            tnom: self.tnom,
            rd: self.rd,
            rs: self.rs,
            has_step: self.disc.is_some(),
            pairs: Self::jac_pairs(d, g, s, b, self.drain_ext, self.source_ext),
            branches: [
                (g, s, self.cgs_eval),
                (g, d, self.cgd_eval),
                (g, b, self.cgb_eval),
                (b, s, self.cbs_eval),
                (b, d, self.cbd_eval),
            ],
        }
    }

    /// The rows and slots that `resolve_cells` found for the 24 pairs.
    pub fn resolved_places(&self) -> [Option<(usize, usize)>; 24] {
        let (_, cells) = self.jac_cells.as_ref().expect("resolved before");
        cells.map(|cell| cell.map(row_and_slot))
    }

    /// An evaluation's threshold: the bulk's and the source's voltages, flipped by polarity, in the Rust's own lines.
    pub fn threshold_at(&self, x: &[f64]) -> f64 {
        let at = |node: NodeId| node.map_or(0.0, |i| x[i]);
        self.threshold(self.polarity * (at(self.bulk) - at(self.source)))
    }

    /// Kept vgs and vds, threshold, current, gm, gds, gmbs.
    pub fn answer(&self, threshold: f64) -> [f64; 7] {
        [self.vgs_eff_prev, self.vds_eff_prev, threshold, self.ids_eval, self.gm, self.gds, self.gmbs]
    }

    /// Current, gm, gds, gmbs and offset, as `curve` prints them.
    pub fn curve_point(&self) -> [f64; 5] {
        [self.ids_eval, self.gm, self.gds, self.gmbs, self.jeq]
    }

    /// The channel of the fourteen cases: vto_t 1, kp_t 2, phi_t 0.6; W/L is 1 and lambda and gamma are 0 already.
    pub fn set_reference_channel(&mut self) {
        self.vto_t = 1.0;
        self.kp_t = 2.0;
        self.phi_t = 0.6;
        assert!(self.w_over_l == 1.0 && self.lambda == 0.0 && self.gamma == 0.0);
    }

    pub fn junction(isat: f64, v: f64, vt: f64, gmin: f64) -> [f64; 2] {
        let (current, conductance) = Self::bulk_junction(isat, v, vt, gmin);
        [current, conductance]
    }
}
