//! The recorded tapes reach every refusal in every place, and would show wrong programs.

use std::collections::HashSet;

use super::super::model::{CUT, EARLY, UNDEFINED};
use super::{FRAMES, Frame, carried_out, given, whole_commands};

/// Which loops are set up: 1 the carrier, 2 timing, 3 both.
fn loops(commands: &[&[u8]]) -> u8 {
    let set_ups = commands.iter().map(|command| command[0]);
    set_ups
        .filter(|byte| *byte < 3)
        .fold(0, |all, one| all | one)
}

/// A refusal: its number, what was set up, the command's byte, and how many of its bytes were read.
type Place = (u32, u8, u8, usize);

/// The places of all refusals in the recorded tapes.
fn met() -> HashSet<Place> {
    let mut places = HashSet::new();
    for Frame { tape, outcome } in FRAMES.iter() {
        if outcome.number > 0 {
            let before = carried_out(tape, outcome);
            let start = before.concat().len();
            let read = outcome.stop - start;
            places.insert((outcome.number, loops(&before), tape[start], read));
        }
    }
    places
}

/// The refusals that can arise, by number, command and bytes read. With one loop missing there are early ones;
/// with both there, samples may be cut.
fn to_meet(loops: u8) -> Vec<(u32, u8, usize)> {
    let undefined = [(0, 1), (5, 1), (255, 1), (1, 2), (2, 2), (3, 3)];
    let cut = [
        (1, 1),
        (1, 2),
        (1, 25),
        (2, 1),
        (2, 2),
        (2, 41),
        (3, 1),
        (3, 2),
    ];
    let mut list: Vec<(u32, u8, usize)> = undefined.map(|(c, read)| (UNDEFINED, c, read)).into();
    list.extend(cut.map(|(command, read)| (CUT, command, read)));
    list.extend((2..=4).map(|number| (number, 1, 26)));
    list.extend((1..=6).map(|number| (number, 2, 42)));
    if loops < 3 {
        list.extend([(EARLY, 3, 3), (EARLY, 4, 1)]);
    } else {
        list.extend([3, 4, 7, 11].map(|read| (CUT, 3, read)));
    }
    list
}

#[test]
fn every_refusal_is_met_whatever_is_set_up() {
    let met = met();
    for loops in 0..4 {
        for (number, command, read) in to_meet(loops) {
            let place = (number, loops, command, read);
            assert!(met.contains(&place), "{place:?}");
        }
    }
}

#[test]
fn nothing_is_refused_in_another_place() {
    for (number, loops, command, read) in met() {
        let fits = match number {
            UNDEFINED => match command {
                1 | 2 => read == 2,
                3 => read == 3,
                4 => false,
                _ => read == 1,
            },
            EARLY => loops < 3 && [(3, 3), (4, 1)].contains(&(command, read)),
            CUT => match command {
                1 => read < 26,
                2 => read < 42,
                _ => command == 3 && (read < 3 || loops == 3),
            },
            1..=6 => match command {
                1 => (2..=4).contains(&number) && read == 26,
                _ => command == 2 && read == 42,
            },
            _ => false,
        };
        assert!(fits, "{number} {loops} {command} {read}");
    }
}

#[test]
fn every_pair_of_selectors_gives_symbols_and_all_counts_are_met() {
    let mut pairs = HashSet::new();
    let mut counts = HashSet::new();
    for Frame { tape, outcome } in FRAMES.iter() {
        let commands = carried_out(tape, outcome);
        let samples = commands.iter().filter(|command| command[0] == 3);
        counts.extend(samples.map(|command| u16::from_le_bytes([command[1], command[2]])));
        if outcome.number == 0 && !outcome.output.is_empty() {
            let last = |byte| commands.iter().rfind(|c| c[0] == byte).unwrap()[1];
            pairs.insert((last(1), last(2)));
        }
    }
    assert_eq!(pairs.len(), 6);
    for count in [0, 1, 2, 16, 2_047, 2_048] {
        assert!(counts.contains(&count), "{count}");
    }
}

#[test]
fn symbols_have_every_sort_of_part_and_are_many() {
    let outputs = FRAMES.iter().map(|frame| &frame.outcome.output[..]);
    let outputs: Vec<&[u8]> = outputs.collect();
    assert!(outputs.iter().any(|output| output.len() > 8 * 1_400));
    let parts = outputs.concat();
    let words = parts.as_chunks().0.iter().copied().map(u32::from_le_bytes);
    let words: Vec<u32> = words.collect();
    let count = |some: fn(f32) -> bool| words.iter().filter(|w| some(f32::from_bits(**w))).count();
    assert!(count(|x| x.is_nan()) > 100 && count(|x| x.is_infinite()) > 5);
    assert!(count(|x| x == 0.0) > 100 && count(|x| x.is_subnormal()) > 5);
    let nan = |word: &&u32| f32::from_bits(**word).is_nan();
    assert!(words.iter().filter(nan).all(|word| *word == 0x7fc0_0000));
}

/// A wrong program: the commands that it carries out in place of one, seen what came before.
type Wrong = for<'a> fn(before: &[&'a [u8]], command: &'a [u8]) -> Vec<&'a [u8]>;

/// Some recorded tapes that are not refused give another output.
fn must_show(wrong: Wrong) {
    let mut shown = 0;
    for Frame { tape, outcome } in FRAMES.iter().filter(|frame| frame.outcome.number == 0) {
        let commands = whole_commands(tape);
        let each = (0..commands.len()).flat_map(|at| wrong(&commands[..at], commands[at]));
        let instead = each.collect::<Vec<&[u8]>>().concat();
        let differs = instead != *tape && given(&instead).output != outcome.output;
        shown += usize::from(differs);
    }
    assert!(shown >= 6, "{shown}");
}

/// The first and the last command with this byte.
fn first<'a>(commands: &[&'a [u8]], byte: u8) -> &'a [u8] {
    commands.iter().find(|command| command[0] == byte).unwrap()
}

fn last<'a>(commands: &[&'a [u8]], byte: u8) -> &'a [u8] {
    commands.iter().rfind(|command| command[0] == byte).unwrap()
}

#[test]
fn a_wrong_reset_shows() {
    // None at all; of timing alone; of the carrier alone; to the first set-ups.
    must_show(|_, command| match command[0] {
        4 => vec![],
        _ => vec![command],
    });
    must_show(|before, command| match command[0] {
        4 => vec![last(before, 2)],
        _ => vec![command],
    });
    must_show(|before, command| match command[0] {
        4 => vec![last(before, 1)],
        _ => vec![command],
    });
    must_show(|before, command| match command[0] {
        4 => vec![first(before, 1), first(before, 2)],
        _ => vec![command],
    });
}

#[test]
fn a_wrong_set_up_shows() {
    // A repeated one that makes the other loop fresh too: the carrier's, and timing's.
    must_show(|before, command| match (loops(before), command[0]) {
        (3, 1) => vec![command, last(before, 2)],
        _ => vec![command],
    });
    must_show(|before, command| match (loops(before), command[0]) {
        (3, 2) => vec![command, last(before, 1)],
        _ => vec![command],
    });
    // One that is passed over: the carrier's, timing's, and one that comes before the other loop's.
    must_show(|before, command| match (loops(before), command[0]) {
        (3, 1) => vec![],
        _ => vec![command],
    });
    must_show(|before, command| match (loops(before), command[0]) {
        (3, 2) => vec![],
        _ => vec![command],
    });
    must_show(|before, command| match (loops(before), command[0]) {
        (1, 1) => vec![],
        _ => vec![command],
    });
    must_show(|before, command| match (loops(before), command[0]) {
        (2, 2) => vec![],
        _ => vec![command],
    });
}
