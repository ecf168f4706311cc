//! Plays the workloads of docs/speed.md, as the program `speed` of crates/ does, and prints the same.

use std::process::ExitCode;

use peer::bus::{Bus, Guard, LineBoard, Ram, Split};
use peer::exchange::{Cold, Live, Refusal, SHEET};

const START: u16 = 0x0200;
const STACK: u16 = 0x0400;
const VECTOR: u8 = 8;

/// The steps of a run, and those from one ring to the next.
const STEPS: u16 = 65_000;
const BETWEEN_RINGS: u16 = 50;

const HEIGHTS: [u8; 3] = [1, 4, 16];

struct Workload {
    name: &'static str,
    loads: &'static [(u16, &'static [u8])],
    is_rung: bool,
}

const WORKLOADS: [Workload; 5] = [
    Workload { name: "bytes", loads: &[(START, &[0x60, 0x88, 0xF0, 0xFC])], is_rung: false },
    Workload {
        name: "binary",
        loads: &[(START, &[0x68, 0xA9, 1, 2, 3, 4, 5, 6, 7, 8, 0x60, 0x28, 0xC3, 0xF0, 0xFB])],
        is_rung: false,
    },
    Workload {
        name: "decimal",
        loads: &[(START, &[0x99, 0x68, 0xA9, 1, 2, 3, 4, 5, 6, 7, 8, 0x60, 0x28, 0xC3, 0xF0, 0xFB])],
        is_rung: false,
    },
    Workload {
        name: "calls",
        loads: &[
            (START, &[0x4A, 0xA9, 0x00, 0x06, 0xCE, 0x10, 0x02, 0x9A, 0x9F, 0xF0, 0xF9]),
            (0x0210, &[0x0A, 0x60, 0x88, 0xE5, 0xE3, 0x9E]),
        ],
        is_rung: false,
    },
    Workload {
        name: "rung",
        loads: &[
            (8, &[0x00, 0x03]),
            (START, &[0x68, 0xA9, 1, 2, 3, 4, 5, 6, 7, 8, 0x4A, 0xA9, 0x00, 0x06]),
            (0x020E, &[0x60, 0x28, 0xC3, 0xB3, 0x10, 0x06, 0xB1, 0x10, 0x06, 0xCE, 0x40, 0x02, 0x88, 0xF0, 0xF1]),
            (0x0240, &[0x9A, 0x0A, 0x60, 0xE5, 0xE3, 0x9F, 0x9E]),
            (
                0x0300,
                &[
                    0x9A, 0x98, 0x62, 0xB3, 0x00, 0x07, 0xB0, 0x07, 0x07, 0x88, 0xB2, 0x07, 0x07, 0xB1, 0x00, 0x07,
                    0x9F, 0x9E,
                ],
            ),
        ],
        is_rung: true,
    },
];

/// A pile and three layers over it.
type Higher<B> = Guard<Split<Guard<B>, LineBoard>>;

fn higher<B>(below: B) -> Higher<B> {
    let low = Guard { first: 0x9000, last: 0x90FF, below };
    let high = LineBoard { base: 0xFF00, trunks: Default::default() };
    Guard { first: 0x8000, last: 0x80FF, below: Split { at: 0xFF00, low, high } }
}

fn ring_and_run(live: &mut Live, bus: &mut impl Bus, sheet: &mut [u8]) -> Result<u16, Refusal> {
    live.ring(VECTOR, bus, sheet)?;
    Ok(live.run(BETWEEN_RINGS, bus, sheet)?.done)
}

/// The steps done in all the runs, and the exchange after them.
fn play(bus: &mut impl Bus, is_rung: bool, runs: u32) -> (u64, Live) {
    let mut sheet = [0; SHEET];
    let mut live = Cold.go(START, STACK);
    let mut steps = 0;
    for _ in 0..runs {
        if is_rung {
            for _ in 0..STEPS / BETWEEN_RINGS {
                steps += u64::from(ring_and_run(&mut live, bus, &mut sheet).unwrap_or(0));
            }
        } else {
            steps += u64::from(live.run(STEPS, bus, &mut sheet).map_or(0, |run| run.done));
        }
    }
    (steps, live)
}

fn show(workload: &Workload, height: u8, runs: u32) -> Option<()> {
    let mut ram = Ram { base: 0, bytes: vec![0; 65_536] };
    for &(address, bytes) in workload.loads {
        ram.bytes[address.into()..][..bytes.len()].copy_from_slice(bytes);
    }
    let is_rung = workload.is_rung;
    let (steps, live) = match height {
        1 => play(&mut ram, is_rung, runs),
        4 => play(&mut higher(ram), is_rung, runs),
        16 => play(&mut higher(higher(higher(higher(higher(ram))))), is_rung, runs),
        _ => return None,
    };
    let cpu = live.end();
    print!("{:8} {height:2} {steps:11} steps, PC {:04X}, R40 on", workload.name, cpu.pc());
    for register in &cpu.registers.bytes()[0o40..0o50] {
        print!(" {register:02X}");
    }
    println!();
    Some(())
}

fn show_as_asked(arguments: &[String]) -> Option<()> {
    match arguments {
        [] => {
            WORKLOADS.iter().try_for_each(|workload| HEIGHTS.iter().try_for_each(|&height| show(workload, height, 1)))
        }
        [name, height, runs] => {
            let workload = WORKLOADS.iter().find(|workload| workload.name == name)?;
            show(workload, height.parse().ok()?, runs.parse().ok()?)
        }
        _ => None,
    }
}

fn main() -> ExitCode {
    let arguments: Vec<_> = std::env::args().skip(1).collect();
    if show_as_asked(&arguments).is_none() {
        eprintln!("usage: speed [WORKLOAD HEIGHT RUNS]");
        return ExitCode::FAILURE;
    }
    ExitCode::SUCCESS
}
