//! Tapes from seeds.
//!
//! Most tapes are written while they are played: where the exchange comes to an address that has no code yet, an instruction is
//! made up that it takes, so that a tape goes on for long and through all of the table.

use peer::bus::Bus;
use peer::exchange::{Cold, End, Live, Step, SHEET};
use peer::tape::{load, memory, Memory, TAPE};

use crate::random::Random;

/// RAM that a tape can load.
const RAM: usize = 32_768;

/// Where programs, stacks, data and handlers like to be: by the ends of the guard, of RAM, of the line board and of all addresses too.
const PROGRAMS: [u16; 8] = [0x0100, 0x1000, 0x1000, 0x1000, 0x00F8, 0x7FC0, 0x7FF0, 0x0000];
const STACKS: [u16; 12] =
    [0x0400, 0x0400, 0x0400, 0x0400, 0x0400, 0x0400, 0x7000, 0x00FC, 0x7FFC, 0x8004, 0x800F, 0xFFFE];
const HANDLERS: [u16; 4] = [0x3000, 0x3100, 0x3200, 0x7F80];
/// A subroutine of the handlers.
const SUBROUTINE: u16 = 0x3300;
const DATA: u16 = 0x2000;
const POINTERS: u16 = 0x2080;
const EDGES: [u16; 16] = [
    0x0000, 0x0001, 0x00FE, 0x00FF, 0x0100, 0x0101, 0x7FFE, 0x7FFF, 0x8000, 0x8001, 0x800E, 0x800F, 0x8010, 0xFFFE,
    0xFFFF, 0x7FF9,
];

/// Bytes at the ends of what a byte, a digit or a sign can be.
const BYTES: [u8; 16] =
    [0x00, 0x01, 0x7F, 0x80, 0xFF, 0xFE, 0x81, 0x99, 0x98, 0x09, 0x90, 0x10, 0x50, 0x49, 0x9A, 0xA9];

/// The codes that a handler is written with.
const BCD: u8 = 0x99;
const SAD: u8 = 0x9A;
const DCE: u8 = 0x9B;
const ICE: u8 = 0x9C;
const RTN: u8 = 0x9E;
const PAD: u8 = 0x9F;
/// JSB, literal.
const JSB: u8 = 0xCE;
/// ARP := R6, so that the return pointer moves.
const ARP_R6: u8 = 0x06;
/// DRP := the register that is added.
const DRP: u8 = 0x40;
/// PU+ and PO-, multi, direct.
const PUSH: u8 = 0xE5;
const POP: u8 = 0xE3;
/// Multi ST, literal direct; multi LD, immediate. The byte forms are one less.
const STORE: u8 = 0xB3;
const LOAD: u8 = 0xA9;
/// Multi LD, literal direct.
const FETCH: u8 = 0xB1;

/// How many steps one tape may take in all, but for its last run.
const STEPS: usize = 3_000;

/// A tape, and how often each code was carried out in making it.
pub struct Made {
    pub tape: Vec<u8>,
    pub codes: [u32; 256],
}

pub fn make(seed: u64) -> Made {
    let mut author = Author::new(Random::new(seed));
    let mut records = match author.random.below(16) {
        0 => author.scraps(),
        1 | 2 => author.noise(),
        _ => author.program(),
    };
    if author.random.one_in(5) {
        author.damage(&mut records);
    }
    let mut tape = records.concat();
    if author.random.one_in(16) {
        let end = author.random.below(tape.len() + 1);
        tape.truncate(end);
    }
    Made { tape, codes: author.codes }
}

fn record(mark: &[u8; 2], fields: &[u8]) -> Vec<u8> {
    [mark, fields].concat()
}

fn go(pc: u16, return_pointer: u16) -> Vec<u8> {
    record(b"GO", &[pc.to_le_bytes(), return_pointer.to_le_bytes()].concat())
}

fn run(steps: u16) -> Vec<u8> {
    record(b"RU", &steps.to_le_bytes())
}

fn ring(vector: u8) -> Vec<u8> {
    record(b"RI", &[vector])
}

fn end() -> Vec<u8> {
    record(b"EN", &[])
}

/// Writes a tape and plays it at the same time.
struct Author {
    random: Random,
    /// What the tape loads, by address.
    loaded: Vec<Option<u8>>,
    memory: Memory,
    sheet: [u8; SHEET],
    steps: usize,
    codes: [u32; 256],
}

impl Author {
    fn new(random: Random) -> Self {
        Self { random, loaded: vec![None; RAM], memory: memory(), sheet: [0; SHEET], steps: 0, codes: [0; 256] }
    }

    /// Marks and bytes without sense.
    fn scraps(&mut self) -> Vec<Vec<u8>> {
        (0..self.random.below(12))
            .map(|_| {
                let mark =
                    self.random.pick(&[b"LD", b"GO", b"RU", b"RI", b"EN", b"LD", b"GO", b"EN", b"ld", b"XX", b"\0\0"]);
                let count = self.random.below(8);
                let mut fields = self.random.bytes(count);
                if mark == b"LD" {
                    fields.insert(0, self.random.byte() / 2);
                    fields.insert(0, self.random.byte());
                    fields.insert(2, (fields.len() - 2) as u8);
                }
                record(mark, &fields)
            })
            .collect()
    }

    /// Bytes of any kind as code.
    fn noise(&mut self) -> Vec<Vec<u8>> {
        let (pc, stack) = (self.random.pick(&PROGRAMS), self.random.pick(&STACKS));
        for _ in 0..4 {
            let bytes = self.random.bytes(200);
            let address = if self.random.one_in(2) { pc } else { self.address(pc) };
            self.put(address, &bytes);
        }
        self.put_vectors();
        let mut records = self.loads();
        records.push(go(pc, stack));
        for _ in 0..self.random.below(12) {
            records.push(if self.random.one_in(3) { self.any_ring() } else { run(self.random.byte().into()) });
        }
        records.push(end());
        records
    }

    /// A program that is written while it runs.
    fn program(&mut self) -> Vec<Vec<u8>> {
        let pc = self.random.pick(&PROGRAMS);
        let stack = self.random.pick(&STACKS);
        for _ in 0..4 {
            let bytes = self.operand(32);
            let place = DATA + self.random.below(64) as u16;
            self.put(place, &bytes);
        }
        for i in 0..16 {
            let address = self.address(pc).to_le_bytes();
            self.put(POINTERS + 2 * i, &address);
        }
        self.put_vectors();
        for handler in HANDLERS {
            let code = self.handler(pc);
            self.put(handler, &code);
        }
        self.put(SUBROUTINE, &[SAD, BCD, ICE, DCE, PAD, RTN]);

        let mut live = Cold.go(pc, stack);
        let mut calls = Vec::new();
        // Some tapes go by few steps at a time, which shows where two programs part.
        let (most_calls, most_steps) = if self.random.one_in(6) { (100, 3) } else { (14, 125) };
        for _ in 0..2 + self.random.below(most_calls) {
            if self.random.one_in(3) {
                let record = self.any_ring();
                // A ring that is refused changes nothing, here as there.
                let _ = live.ring(record[2], &mut self.memory, &mut self.sheet);
                calls.push(record);
            }
            let steps = self.random.below(most_steps + 1);
            let refused = self.serve(&mut live, steps);
            calls.push(run(steps as u16));
            if refused && !self.random.one_in(4) {
                break;
            }
        }
        if self.random.one_in(20) {
            calls.push(run(u16::MAX));
        }
        let mut records = self.loads();
        records.push(go(pc, stack));
        records.append(&mut calls);
        records.push(end());
        records
    }

    /// Has bytes loaded, where there is RAM and none are loaded yet.
    fn put(&mut self, address: u16, bytes: &[u8]) {
        for (i, &byte) in bytes.iter().enumerate() {
            let address = address.wrapping_add(i as u16);
            if let Some(place @ None) = self.loaded.get_mut(usize::from(address)) {
                *place = Some(byte);
                self.write(address, &[byte]);
            }
        }
    }

    fn write(&mut self, address: u16, bytes: &[u8]) {
        load(&mut self.memory, address, bytes).expect("the address is one of RAM");
    }

    fn put_vectors(&mut self) {
        for vector in (0..16).step_by(2) {
            let handler = if self.random.one_in(16) { self.random.pair() } else { self.random.pick(&HANDLERS) };
            self.put(vector, &handler.to_le_bytes());
        }
    }

    fn any_ring(&mut self) -> Vec<u8> {
        let vector = if self.random.one_in(10) { self.random.byte() } else { 2 * self.random.below(8) as u8 };
        ring(vector)
    }

    /// All that is to be loaded, as records in any order, some bytes twice.
    fn loads(&mut self) -> Vec<Vec<u8>> {
        let mut records = Vec::new();
        let mut from = 0;
        while let Some(skip) = self.loaded[from..].iter().position(Option::is_some) {
            from += skip;
            let most = 1 + self.random.below(255);
            let bytes: Vec<u8> = self.loaded[from..].iter().take(most).map_while(|&byte| byte).collect();
            let header = [from as u8, (from >> 8) as u8, bytes.len() as u8];
            records.push(record(b"LD", &[&header[..], &bytes].concat()));
            from += if bytes.len() > 4 && self.random.one_in(8) { bytes.len() - 2 } else { bytes.len() };
        }
        self.random.shuffle(&mut records);
        records
    }

    /// Steps as a run makes them, with code made up where there is none. Tells whether one was refused.
    fn serve(&mut self, live: &mut Live, steps: usize) -> bool {
        for _ in 0..steps {
            if self.steps == STEPS {
                return false;
            }
            self.steps += 1;
            match self.step(live) {
                Some(Step { told: None, end: None | Some(End::Clean), .. }) => {}
                answer => return answer.is_none(),
            }
        }
        false
    }

    /// One step, or none where it is refused.
    fn step(&mut self, live: &mut Live) -> Option<Step> {
        let pc = live.cpu().pc();
        let place = usize::from(pc);
        if self.loaded.get(place) != Some(&None) || self.memory.read(pc) != Ok(0) {
            return self.try_step(live);
        }
        for _ in 0..12 {
            let instruction = self.instruction(live);
            let places = place..place + instruction.len();
            if !self.loaded.get(places.clone()).map_or(false, |places| places.iter().all(Option::is_none)) {
                continue;
            }
            let before = (live.clone(), self.memory.clone(), self.sheet);
            self.write(pc, &instruction);
            let step = self.try_step(live);
            // Refusals are wanted too, and programs that leave RAM, but after one a tape mostly stands still.
            let on_the_way = step.is_some() && (0x0100..0x8000).contains(&live.cpu().pc());
            if on_the_way || self.random.one_in(60) {
                for (i, &byte) in places.zip(&instruction) {
                    self.loaded[i] = Some(byte);
                }
                return step;
            }
            (*live, self.memory, self.sheet) = before;
        }
        self.try_step(live)
    }

    fn try_step(&mut self, live: &mut Live) -> Option<Step> {
        let code = self.memory.read(live.cpu().pc());
        let step = live.step(&mut self.memory, &mut self.sheet).ok()?;
        self.codes[usize::from(code.ok()?)] += 1;
        Some(step)
    }

    /// An instruction that may do at PC.
    fn instruction(&mut self, live: &Live) -> Vec<u8> {
        let code = match self.random.below(32) {
            0..=4 => self.register(),
            5..=9 => 0x40 | self.register(),
            10..=12 => self.random.pick(&[0xA8, 0xA9, 0xA9]),
            13 => self.random.byte(),
            14..=15 => 0xF0 + self.random.byte() % 16,
            16 => 0x98 + self.random.byte() % 8,
            17..=18 => 0xE0 + self.random.byte() % 16,
            19..=23 => 0x80 + self.random.below(0x18) as u8,
            24..=27 => 0xA0 + self.random.byte() % 32,
            _ => 0xC0 + self.random.byte() % 32,
        };
        self.completed(code, live)
    }

    /// A code with what follows it.
    fn completed(&mut self, code: u8, live: &Live) -> Vec<u8> {
        let cpu = live.cpu();
        let group = if cpu.drp() < 0o40 { 2 } else { 8 };
        let span = if code % 2 == 1 { group - usize::from(cpu.drp()) % group } else { 1 };
        let mut instruction = vec![code];
        match code {
            0xF0..=0xFF => {
                let offset = match self.random.below(4) {
                    0 => self.random.byte(),
                    1 => (self.random.below(24) as u8).wrapping_neg(),
                    _ => self.random.below(8) as u8,
                };
                instruction.push(offset);
            }
            0xD6 | 0xDE => {}
            0xC6 | 0xCE | 0xB0..=0xBF | 0xD0..=0xD7 => {
                let address = self.address(cpu.pc());
                let indexed = matches!(code, 0xC6 | 0xB4..=0xB7 | 0xBC..=0xBF);
                let literal = if indexed { address.wrapping_sub(cpu.registers.pair(cpu.arp())) } else { address };
                instruction.extend(literal.to_le_bytes());
            }
            0xA8..=0xAB | 0xC8..=0xCF => instruction.extend(self.operand(span)),
            _ => {}
        }
        instruction
    }

    /// A register; the processor's own more seldom.
    fn register(&mut self) -> u8 {
        match self.random.below(8) {
            0 => self.random.byte() % 64,
            1 => 8 + 2 * self.random.below(28) as u8,
            2..=4 => 8 + 8 * self.random.below(7) as u8,
            _ => 8 + self.random.below(56) as u8,
        }
    }

    /// An address that a program at `pc` may want.
    fn address(&mut self, pc: u16) -> u16 {
        match self.random.below(16) {
            0 | 1 => self.random.pick(&EDGES),
            2 => pc.wrapping_add(self.random.below(32) as u16),
            3 => self.random.pick(&STACKS).wrapping_add(self.random.below(6) as u16),
            4 => self.random.pair(),
            5 => self.random.pick(&PROGRAMS).wrapping_add(self.random.below(64) as u16),
            6..=8 => POINTERS + 2 * self.random.below(16) as u16,
            _ => DATA + self.random.below(64) as u16,
        }
    }

    /// Bytes to count with: addresses, bytes or rows at an end of something, or decimal ones.
    fn operand(&mut self, count: usize) -> Vec<u8> {
        let kind = self.random.below(5);
        let filler = self.random.pick(&[0x00, 0xFF, 0x99]);
        let mut bytes = Vec::new();
        while bytes.len() < count {
            match kind {
                0 => bytes.extend(self.address(DATA).to_le_bytes()),
                1 if bytes.len() + 1 < count => bytes.push(filler),
                1 | 2 => bytes.push(self.random.pick(&BYTES)),
                _ => bytes.push(16 * self.random.below(10) as u8 + self.random.below(10) as u8),
            }
        }
        bytes.truncate(count);
        bytes
    }

    /// An interrupt handler that saves what it uses and gives it back, or nearly.
    fn handler(&mut self, pc: u16) -> Vec<u8> {
        let group = self.random.pick(&[0o10, 0o12, 0o22, 0o40, 0o44, 0o50, 0o70]);
        let other = self.random.pick(&[0o14, 0o30, 0o60, 0o63]);
        let mut code = vec![vec![SAD], vec![ARP_R6], vec![DRP | group], vec![PUSH], vec![DRP | other], vec![PUSH]];
        for _ in 0..self.random.below(6) {
            let [low, high] = match self.random.below(8) {
                0 => pc.wrapping_add(self.random.below(64) as u16),
                1 => self.random.pick(&EDGES),
                _ => DATA + self.random.below(64) as u16,
            }
            .to_le_bytes();
            code.push(match self.random.below(7) {
                0 => vec![DRP | group],
                1 => vec![STORE, low, high],
                2 => vec![STORE - 1, low, high],
                3 => vec![LOAD - 1, self.random.pick(&BYTES)],
                4 => vec![0x80 + self.random.below(0x18) as u8],
                5 => vec![FETCH, low, high],
                _ => self
                    .random
                    .pick(&[&[ICE, DCE][..], &[BCD], &[JSB, SUBROUTINE as u8, (SUBROUTINE >> 8) as u8]])
                    .to_vec(),
            });
        }
        code.extend([vec![ARP_R6], vec![DRP | other], vec![POP], vec![DRP | group], vec![POP], vec![PAD], vec![RTN]]);
        match self.random.below(6) {
            0 => drop(code.remove(self.random.below(code.len()))),
            1 => code.insert(self.random.below(code.len()), vec![self.random.byte()]),
            2 => code.insert(self.random.below(code.len()), vec![self.random.pick(&[ICE, DCE, BCD, RTN])]),
            _ => {}
        }
        code.concat()
    }

    /// Makes the tape another one than it ought to be.
    fn damage(&mut self, records: &mut Vec<Vec<u8>>) {
        let (at, last) = (self.random.below(records.len() + 1), records.len());
        let stray = [go(0, 0), run(1), ring(2), end(), record(b"LD", &[0, 0x10, 1, 0x98])];
        match self.random.below(9) {
            0 => records.insert(at, self.random.bytes(1)),
            1 => records.insert(at, self.random.bytes(2)),
            2 => records.insert(at, stray[self.random.below(stray.len())].clone()),
            3 if at < last => drop(records.remove(at)),
            4 if at < last => records.swap(at, self.random.below(last)),
            5 => records.insert(0, record(b"LD", &[0xFF, 0x7F, self.random.pick(&[0, 1, 2]), 0x98, 0x98])),
            6 => records.push(self.random.pick(&[&b"E"[..], b"EN", b"RU", b"GO\0\0\0\0", b"en", b"\n"]).to_vec()),
            7 => {
                let filler = record(b"LD", &[&[0x00, 0x40, 255][..], &[0x98; 255]].concat());
                let count = TAPE / filler.len() - self.random.below(3);
                records.splice(0..0, vec![filler; count]);
            }
            _ => {}
        }
    }
}
