//! Scripts of packet calls: five packets for the reader, then one call of a writer. Of each sort, every second
//! one is of a sweep, as long as that lasts.

use crate::packet::shapes;
use crate::random::Random;
use crate::record::Script;
use crate::{readings, writings};

const READINGS_TO_A_WRITING: usize = 5;

pub fn script(random: &mut Random, count: usize) -> Vec<u8> {
    let shapes = shapes();
    let mut packets = readings::sweep(random).into_iter();
    let mut records = writings::sweep(random).into_iter();
    let mut script = Script::default();
    for index in 0..count {
        let round = index / (READINGS_TO_A_WRITING + 1);
        if index % (READINGS_TO_A_WRITING + 1) == READINGS_TO_A_WRITING {
            let swept = every_second(round, &mut records);
            script.raw(&swept.unwrap_or_else(|| writings::random(random)));
        } else {
            let swept = every_second(index, &mut packets);
            script.packet(&swept.unwrap_or_else(|| readings::random(random, &shapes)));
        }
    }
    script.bytes
}

fn every_second<T>(index: usize, sweep: &mut impl Iterator<Item = T>) -> Option<T> {
    if index.is_multiple_of(2) {
        sweep.next()
    } else {
        None
    }
}
