//! Every field of a state, with its name. The states are taken apart field by field, so that a
//! field left out would not compile.

use crate::bits::{Parts, hex32, hex64};
use crate::kernels::costas::{CostasConstellation, CostasState};
use crate::kernels::symbol_sync::{SymbolSyncState, Ted};

/// One value of a state.
#[derive(Clone, Copy, Debug)]
pub enum Value {
    /// A number of 32 bits.
    Single(f32),
    /// A number of 64 bits.
    Double(f64),
    /// A position.
    Count(usize),
    /// A phase.
    Phase(u32),
    /// An enum's or a truth value's number.
    Code(u8),
}

impl Value {
    /// The value as it is written: bit patterns, a count in decimal.
    pub fn text(self) -> String {
        match self {
            Value::Single(x) => hex32(x),
            Value::Double(x) => hex64(x),
            Value::Count(n) => n.to_string(),
            Value::Phase(p) => format!("{p:08x}"),
            Value::Code(c) => c.to_string(),
        }
    }
}

/// A field: its name and its values, one for each part of each sample.
pub type Field = (&'static str, Vec<Value>);

/// What is shown a value, with its field's name.
pub type See<'a> = dyn FnMut(&'static str, Value) + 'a;

/// A state that can be read field by field.
pub trait Fields {
    /// Shows the values of all fields, in order.
    fn each(&self, see: &mut See);

    /// Shows what is told of the state beside its fields.
    fn readings(&self, _see: &mut See) {}

    /// All fields, then the readings.
    fn fields(&self) -> Vec<Field> {
        let mut list: Vec<Field> = Vec::new();
        let mut see = |name, value| match list.last_mut() {
            Some((last, values)) if *last == name => values.push(value),
            _ => list.push((name, vec![value])),
        };
        self.each(&mut see);
        self.readings(&mut see);
        list
    }
}

fn samples<T: Parts>(see: &mut See, name: &'static str, samples: &[T]) {
    for part in samples.iter().flat_map(|sample| sample.parts()) {
        see(name, Value::Single(part));
    }
}

/// The number of a detector.
pub fn ted_code(ted: Ted) -> u8 {
    match ted {
        Ted::Gardner => 0,
        Ted::MuellerMuller => 1,
    }
}

/// The number of a constellation.
pub fn constellation_code(constellation: CostasConstellation) -> u8 {
    match constellation {
        CostasConstellation::Bpsk => 0,
        CostasConstellation::Qpsk => 1,
        CostasConstellation::Psk8 => 2,
        CostasConstellation::Qam16 => 3,
        CostasConstellation::Qam64 => 4,
    }
}

impl<T: Parts> Fields for SymbolSyncState<T> {
    fn each(&self, see: &mut See) {
        let SymbolSyncState {
            sps,
            ted,
            loop_bw,
            damping,
            max_deviation,
            ted_gain,
            kp,
            ki,
            lim,
            hist,
            i,
            mu,
            omega,
            integ,
            y_prev,
            d_prev,
            mid,
            mid_ready,
            started,
        } = *self;
        see("sps", Value::Double(sps));
        see("ted", Value::Code(ted_code(ted)));
        see("loop_bw", Value::Double(loop_bw));
        see("damping", Value::Double(damping));
        see("max_deviation", Value::Double(max_deviation));
        see("ted_gain", Value::Double(ted_gain));
        see("kp", Value::Double(kp));
        see("ki", Value::Double(ki));
        see("lim", Value::Double(lim));
        samples(see, "hist", &hist);
        see("i", Value::Count(i));
        see("mu", Value::Double(mu));
        see("omega", Value::Double(omega));
        see("integ", Value::Double(integ));
        samples(see, "y_prev", &[y_prev]);
        samples(see, "d_prev", &[d_prev]);
        samples(see, "mid", &[mid]);
        see("mid_ready", Value::Code(u8::from(mid_ready)));
        see("started", Value::Code(u8::from(started)));
    }

    fn readings(&self, see: &mut See) {
        see("next_strobe", Value::Double(self.next_strobe()));
        see("sps_estimate", Value::Double(self.sps_estimate()));
    }
}

impl Fields for CostasState {
    fn each(&self, see: &mut See) {
        let CostasState {
            constellation,
            loop_bw,
            damping,
            max_offset,
            kp,
            ki,
            max,
            phase,
            freq,
            level,
            locked,
        } = *self;
        let points = constellation_code(constellation);
        see("constellation", Value::Code(points));
        see("loop_bw", Value::Double(loop_bw));
        see("damping", Value::Double(damping));
        see("max_offset", Value::Double(max_offset));
        see("kp", Value::Single(kp));
        see("ki", Value::Single(ki));
        see("max", Value::Single(max));
        see("phase", Value::Phase(phase));
        see("freq", Value::Single(freq));
        see("level", Value::Single(level));
        see("locked", Value::Code(u8::from(locked)));
    }
}

/// All fields on one line: `name=value`, values of one field with commas between.
pub fn state_line(state: &impl Fields) -> String {
    let mut line = String::from("state");
    for (name, values) in state.fields() {
        let values: Vec<String> = values.into_iter().map(Value::text).collect();
        line += &format!(" {name}={}", values.join(","));
    }
    line
}
