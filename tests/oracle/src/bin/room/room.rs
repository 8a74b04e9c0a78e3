//! The room: its boxes, what happens next, and what becomes of the outputs of their calls.

use crate::boxes::RoomBox;
use crate::network::{Network, Packet};
use crate::report::{count_line, event_line, pair_lines, preview_line, state_line, Report};
use crate::scenario::{Action, Event, Scenario};
use crate::Trial;
use oracle::engine::{InterfaceId, Output};
use oracle::preview::preview;
use oracle::SocketAddrPlain;
use std::io::{self, Write};

pub struct Room<W> {
    /// Microseconds.
    now: i64,
    boxes: Vec<RoomBox>,
    network: Network,
    report: Report<W>,
}

/// What can happen next.
#[derive(Clone, Copy)]
enum Next {
    Event,
    Arrival,
    Timer(usize),
}

impl<W: Write> Room<W> {
    pub fn new(scenario: &Scenario, trial: &Trial, out: W) -> Self {
        let declared = scenario.boxes.iter().enumerate();
        let boxes = declared.map(|(number, line)| RoomBox::new(number, line, trial.alone));
        Room {
            now: 0,
            boxes: boxes.collect(),
            network: Network::new(scenario.delay, trial.late),
            report: Report::new(out),
        }
    }

    pub fn run(mut self, scenario: &Scenario) -> io::Result<()> {
        let mut events = scenario.events.iter().peekable();
        while let Some((time, next)) = self.next(events.peek().map(|event| event.time)) {
            if time > scenario.end {
                break;
            }
            self.now = time;
            match next {
                Next::Event => events.next().map_or(Ok(()), |event| self.event(event))?,
                Next::Arrival => self.arrival()?,
                Next::Timer(number) => self.timer(number)?,
            }
        }
        self.report.end(&pair_lines(&self.boxes))
    }

    /// The earliest of what can happen, and its time. Of one time the first of this order comes first.
    fn next(&self, event: Option<i64>) -> Option<(i64, Next)> {
        let first = [
            (event, Next::Event),
            (self.network.next_arrival(), Next::Arrival),
        ];
        let timers = self.boxes.iter().map(|room_box| room_box.timer);
        let timers = timers.zip((0..).map(Next::Timer));
        let all = first.into_iter().chain(timers);
        all.filter_map(|(time, next)| Some((time?, next)))
            .min_by_key(|(time, _)| *time)
    }

    fn event(&mut self, event: &Event) -> io::Result<()> {
        let room_box = &mut self.boxes[event.number];
        let host_time = room_box.host_time(self.now);
        let line = event_line(room_box.name, event.action);
        self.report.line(self.now, &line)?;
        let outputs = match event.action {
            Action::On => room_box.engine.set_enabled(true, host_time),
            Action::Off => room_box.engine.set_enabled(false, host_time),
            Action::Tempo(tempo) => {
                let state = room_box.with_tempo(tempo, host_time);
                room_box.engine.commit_app_state(state, host_time)
            }
            Action::Preview(tempo) => {
                let asked = room_box.with_tempo(tempo, host_time);
                let (given, moved) = preview(&room_box.engine, &asked, host_time);
                let line = preview_line(room_box.name, &given.timeline, moved);
                self.report.line(self.now, &line)?;
                Vec::new()
            }
            Action::Silent | Action::Heard => {
                room_box.cables_in = matches!(event.action, Action::Heard);
                Vec::new()
            }
        };
        self.take(event.number, outputs)
    }

    /// Hands the packet that arrives to each port that it is for.
    fn arrival(&mut self) -> io::Result<()> {
        let Some(packet) = self.network.arrive() else {
            return Ok(());
        };
        for number in 0..self.boxes.len() {
            let ports = self.boxes[number].engine.interfaces.iter();
            let ports = ports.filter(|(_, port)| packet.is_for(number, port));
            for interface in ports.map(|(&interface, _)| interface).collect::<Vec<_>>() {
                if self.boxes[number].cables_in {
                    self.packet(number, interface, &packet)?;
                }
            }
        }
        Ok(())
    }

    fn packet(&mut self, number: usize, interface: InterfaceId, packet: &Packet) -> io::Result<()> {
        let room_box = &mut self.boxes[number];
        let host_time = room_box.host_time(self.now);
        match room_box.hear(interface, packet, host_time) {
            Ok(outputs) => self.take(number, outputs),
            Err(refusal) => {
                let refused = format!("{} refused: {refusal}", room_box.name);
                self.report.line(self.now, &refused)
            }
        }
    }

    fn timer(&mut self, number: usize) -> io::Result<()> {
        let room_box = &mut self.boxes[number];
        room_box.timer = None;
        let outputs = room_box.engine.handle_timer(room_box.host_time(self.now));
        self.take(number, outputs)
    }

    /// Takes the outputs of a call of this box.
    fn take(&mut self, number: usize, outputs: Vec<Output>) -> io::Result<()> {
        let room_box = &mut self.boxes[number];
        room_box.times.follow(&room_box.engine);
        for output in outputs {
            match output {
                Output::Send {
                    iface_id,
                    to,
                    bytes,
                } => self.send(number, iface_id, to, bytes)?,
                Output::StateChanged { state } => {
                    let line = state_line(number, &self.boxes, &state.timeline);
                    self.report.line(self.now, &line)?;
                }
                Output::NumPeersChanged(count) => {
                    let line = count_line(number, &self.boxes, count);
                    self.report.line(self.now, &line)?;
                }
                Output::SetTimer { at } => self.boxes[number].set_timer(at, self.now),
                // engine.rs emits none of these.
                Output::JoinMulticast { .. }
                | Output::LeaveMulticast
                | Output::OpenUnicast { .. } => {}
            }
        }
        Ok(())
    }

    fn send(
        &mut self,
        number: usize,
        interface: InterfaceId,
        to: SocketAddrPlain,
        bytes: Vec<u8>,
    ) -> io::Result<()> {
        let sender = &self.boxes[number];
        let Some(&from) = sender.engine.interfaces.get(&interface) else {
            return Ok(());
        };
        let packet = Packet {
            sender: number,
            from,
            to,
            bytes,
        };
        if !sender.cables_in || self.network.send(packet, self.now) {
            return Ok(());
        }
        let lost = format!("the network is full: a packet of {} is lost", sender.name);
        self.report.line(self.now, &lost)
    }
}
