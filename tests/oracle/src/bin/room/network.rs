//! The packets that are under way. All take equally long, so that they arrive in the order in which they were sent; but in a trial
//! some take longer.

use oracle::SocketAddrPlain;
use std::collections::VecDeque;

const MOST_UNDER_WAY: usize = 1_024;

const MULTICAST: SocketAddrPlain = SocketAddrPlain {
    ip: [224, 76, 78, 75],
    port: 20_808,
};

pub struct Packet {
    /// The number of the box that sent it, and the port it left by.
    pub sender: usize,
    pub from: SocketAddrPlain,
    pub to: SocketAddrPlain,
    pub bytes: Vec<u8>,
}

impl Packet {
    /// Whether it is for this port: a multicast is for all ports of the other boxes.
    pub fn is_for(&self, number: usize, port: &SocketAddrPlain) -> bool {
        if self.to == MULTICAST {
            number != self.sender
        } else {
            self.to == *port
        }
    }
}

pub struct Network {
    delay: i64,
    /// How much longer one takes at most, and where the sequence of these numbers stands.
    late: u64,
    drawn: u64,
    under_way: VecDeque<(i64, Packet)>,
}

impl Network {
    pub fn new(delay: i64, late: u64) -> Self {
        Network {
            delay,
            late,
            drawn: 1,
            under_way: VecDeque::new(),
        }
    }

    /// Takes a packet that is sent now; gives whether there was place for it.
    pub fn send(&mut self, packet: Packet, now: i64) -> bool {
        let taken = self.under_way.len() < MOST_UNDER_WAY;
        if taken {
            let time = now + self.delay + self.lateness();
            let place = self.under_way.partition_point(|(other, _)| *other <= time);
            self.under_way.insert(place, (time, packet));
        }
        taken
    }

    fn lateness(&mut self) -> i64 {
        // xorshift64.
        self.drawn ^= self.drawn << 13;
        self.drawn ^= self.drawn >> 7;
        self.drawn ^= self.drawn << 17;
        (self.drawn % (self.late + 1)) as i64
    }

    /// When the next packet arrives.
    pub fn next_arrival(&self) -> Option<i64> {
        self.under_way.front().map(|(time, _)| *time)
    }

    /// The packet that arrives next; it is under way no longer.
    pub fn arrive(&mut self) -> Option<Packet> {
        self.under_way.pop_front().map(|(_, packet)| packet)
    }
}
