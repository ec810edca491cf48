//! From a card to a load: an NMOS with its source and bulk at ground, in a matrix of two rows that the device lays out.
use mivtolgya::{Conditions, Device, Load, Matrix, Method, Node, Polarity, Refusal, LAYOUT_COLUMNS};

fn main() -> Result<(), Refusal> {
    let (mut device, _) = Device::from_model_params(Polarity::Nmos, &[("vto", 1.0), ("kp", 2.0), ("gamma", 0.5)], &mut [])?;
    device.set_instance_params(&[("w", 1e-4), ("l", 1e-4)], &mut [])?;
    device.setup_model(300.15)?;
    device.setup_instance(Node::Row(0), Node::Row(1), Node::Ground, Node::Ground, 2)?;
    let (mut columns, mut offsets, mut lengths) = ([0; LAYOUT_COLUMNS], [0; 2], [0; 2]);
    let needed = device.matrix_layout(&mut columns, &mut offsets, &mut lengths)?;
    let x = [1.0, 3.0];
    let conditions =
        Conditions { temperature: 300.15, gmin: 1e-12, limiter: false, transient: true, method: Method::Euler(1e-9) };
    let answer = device.eval(&x, conditions)?;
    println!("ids {} gm {} gds {}", answer.ids, answer.gm, answer.gds);
    let (mut rhs, mut values) = ([0.0; 2], vec![0.0; needed.columns]);
    let columns = &columns[..needed.columns];
    let matrix = Matrix { values: &mut values, columns, offsets: &offsets, lengths: &lengths };
    device.load(Load::Transient(0.0), &mut rhs, matrix)?;
    println!("rhs {rhs:?} matrix {values:?}");
    device.commit_timestep(&x)
}
