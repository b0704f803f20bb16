//! A fault of the original inside a tape's call stops the program. Here it is planted.

use super::super::commands::tape;
use super::super::model::play;
use super::super::orders::every_command;
use super::super::usual::{carrier, ramp, timing};
use super::Fallback;
use crate::error::{Error, Result};
use crate::kernels::costas::{Costas, CostasConstellation, CostasState};
use crate::kernels::symbol_sync::{SymbolSync, SymbolSyncState, Ted};
use crate::timing::Progress;
use crate::types::{C32, Sample};

/// The original with a fault.
#[derive(PartialEq)]
enum Planted {
    /// An error that cannot occur, in one of the loops.
    Timing,
    Carrier,
    /// A sample that is not consumed.
    Left,
    /// None.
    Nothing,
}

impl<T: Sample> SymbolSync<T> for Planted
where
    Fallback: SymbolSync<T>,
{
    fn symbol_sync(
        &self,
        s: &mut SymbolSyncState<T>,
        input: &[T],
        output: &mut [T],
    ) -> Result<Progress> {
        let mut ran = Fallback.symbol_sync(s, input, output)?;
        if *self == Planted::Timing {
            return Err(Error::Internal("planted"));
        }
        ran.consumed -= usize::from(*self == Planted::Left);
        Ok(ran)
    }
}

impl Costas for Planted {
    fn costas(&self, s: &mut CostasState, input: &[C32], output: &mut [C32]) -> Result<()> {
        Fallback.costas(s, input, output)?;
        if *self == Planted::Carrier {
            return Err(Error::Internal("planted"));
        }
        Ok(())
    }
}

fn played(fault: Planted) {
    let set_ups = [timing(Ted::Gardner), carrier(CostasConstellation::Qpsk)];
    play(&fault, &[tape(&set_ups), ramp(5).bytes()].concat());
}

#[test]
#[should_panic(expected = "planted")]
fn an_error_of_timing_is_seen() {
    played(Planted::Timing);
}

#[test]
#[should_panic(expected = "planted")]
fn an_error_of_the_carrier_is_seen() {
    played(Planted::Carrier);
}

#[test]
#[should_panic(expected = "left == right")]
fn a_sample_that_is_left_is_seen() {
    played(Planted::Left);
}

#[test]
fn without_a_fault_nothing_is_seen() {
    let tape = every_command();
    assert_eq!(play(&Planted::Nothing, &tape), play(&Fallback, &tape));
}
