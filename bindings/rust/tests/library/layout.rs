//! The layout is the one that the C header states.

use std::mem::{align_of, offset_of, size_of};
use train_receiver::ffi::{
    C32, Carrier, CarrierParams, CarrierReadings, CarrierSetUp, CarrierTrack, CarrierValues, Clock,
    Counts, Hist, Lock, Nco, Progress, Receiver, Receiver32, ReceiverNarrowed, ReceiverReadings,
    ReceiverSetUp, Timing, TimingParams, TimingReadings, TimingSetUp, TimingTrack, TimingValues,
};

const HEADER: &str = include_str!("../../../c/train_receiver.h");

/// What the header states of a type: its size, and the offset of each field but the first.
macro_rules! stated {
    ($type:ty as $name:ident) => {
        vec![format!("TRR_SIZE({}, {});", stringify!($name), size_of::<$type>())]
    };
    ($type:ty as $name:ident: $first:ident $($field:ident)*) => {{
        assert_eq!(offset_of!($type, $first), 0, stringify!($name));
        let mut lines = stated!($type as $name);
        $(lines.push(format!(
            "TRR_OFFSET({}, {}, {});",
            stringify!($name),
            stringify!($field),
            offset_of!($type, $field)
        ));)*
        lines
    }};
}

/// The size of the field that a function reads.
fn field_size<T, F>(_: fn(T) -> F) -> usize {
    size_of::<F>()
}

/// What the header states of a symbol count: its size, which no offset shows.
macro_rules! counted {
    ($type:ty as $name:ident) => {{
        let bytes = field_size(|x: $type| x.count);
        vec![format!(
            "TRR_FIELD_SIZE({}, count, {bytes});",
            stringify!($name)
        )]
    }};
}

/// The layout here, in the header's words and order.
fn here() -> Vec<String> {
    [
        stated!(bool as bool),
        stated!(usize as size_t),
        stated!(C32 as trr_c32: re im),
        stated!(Progress as trr_progress: consumed produced),
        stated!(Counts as trr_counts: number consumed produced),
        stated!(TimingValues as trr_timing_values:
            sps ted loop_bw damping max_deviation ted_gain),
        stated!(TimingParams as trr_timing_params:
            sps ted loop_bw damping max_deviation ted_gain kp ki lim),
        stated!(Clock as trr_clock: i mu omega integ),
        stated!(Hist<f32> as trr_real_hist: a b c),
        stated!(Hist<C32> as trr_complex_hist: a b c),
        stated!(TimingTrack<f32> as trr_real_track: clock y_prev d_prev mid mid_ready started),
        stated!(TimingTrack<C32> as trr_complex_track: clock y_prev d_prev mid mid_ready started),
        stated!(Timing<f32> as trr_real_timing: params hist track),
        stated!(Timing<C32> as trr_complex_timing: params hist track),
        stated!(TimingSetUp<f32> as trr_real_set_up_answer: number state),
        stated!(TimingSetUp<C32> as trr_complex_set_up_answer: number state),
        stated!(TimingReadings as trr_timing_readings_answer: values next_strobe sps_estimate),
        stated!(CarrierValues as trr_carrier_values: loop_bw damping max_offset),
        stated!(CarrierParams as trr_carrier_params: loop_bw damping max_offset kp ki max),
        stated!(Nco as trr_nco: phase freq),
        stated!(Lock as trr_lock: level locked),
        stated!(CarrierTrack as trr_carrier_track: nco lock),
        stated!(Carrier as trr_carrier: constellation params track),
        stated!(CarrierSetUp as trr_carrier_set_up_answer: number state),
        stated!(CarrierReadings as trr_carrier_readings_answer:
            constellation values frequency phase lock_level locked),
        stated!(Receiver as trr_receiver: timing carrier count),
        counted!(Receiver as trr_receiver),
        stated!(ReceiverSetUp as trr_receiver_set_up_answer: number receiver),
        stated!(ReceiverReadings as trr_receiver_readings_answer: timing carrier count),
        counted!(ReceiverReadings as trr_receiver_readings_answer),
        stated!(Receiver32 as trr_receiver_32: timing carrier count),
        counted!(Receiver32 as trr_receiver_32),
        stated!(ReceiverNarrowed as trr_receiver_narrow_answer: number receiver),
    ]
    .concat()
}

#[test]
fn sizes_and_offsets() {
    let checks = ["TRR_SIZE(", "TRR_OFFSET(", "TRR_FIELD_SIZE("];
    let header: Vec<&str> = HEADER
        .lines()
        .filter(|line| checks.iter().any(|check| line.starts_with(check)))
        .collect();
    assert_eq!(header, here());
}

/// The numbers are those of the receiver record of the earlier library (R19 of docs/SPECIFICATION.md).
#[test]
fn the_earlier_record_keeps_its_layout() {
    assert_eq!(
        (size_of::<Receiver32>(), align_of::<Receiver32>()),
        (232, 8)
    );
    assert_eq!(offset_of!(Receiver32, timing), 0);
    assert_eq!(offset_of!(Receiver32, carrier), 160);
    assert_eq!(offset_of!(Receiver32, count), 224);
    assert_eq!(field_size(|x: Receiver32| x.count), 4);
}

/// R18. The header itself checks its counts against the name.
#[test]
fn the_header_names_the_bits_of_the_count() {
    let bits = 8 * field_size(|x: Receiver| x.count);
    assert_eq!(bits, 64);
    assert_eq!(bits, 8 * field_size(|x: ReceiverReadings| x.count));
    let line = format!("#define TRR_COUNT_BITS {bits}");
    assert_eq!(HEADER.lines().filter(|l| *l == line).count(), 1);
}

#[test]
fn no_field_is_left_out() {
    // The fields of a type are as many as the header's lines about it.
    let stated = |name: &str| {
        let offset = format!("TRR_OFFSET({name}, ");
        1 + HEADER
            .lines()
            .filter(|line| line.starts_with(&offset))
            .count()
    };
    let mut types = 0;
    for body in HEADER.split("typedef struct ").skip(1) {
        let (name, rest) = body.split_once(" {").expect("a body");
        let (fields, _) = rest.split_once(&format!("}} {name};")).expect("an end");
        let fields = fields.lines().filter(|line| line.ends_with(';')).count();
        assert_eq!(fields, stated(name), "{name}");
        types += 1;
    }
    assert_eq!(types, 28);
}
