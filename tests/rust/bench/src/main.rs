//! Measures the port against the Rust on the same jobs in one process, and prints ratios: `bench`. `bench --port KIND` runs the port alone on the
//! jobs of one kind, once, for a tool that counts instructions, and prints the bytes of their root tapes; `bench --kinds` prints the kinds.

use std::{
    env,
    hint::black_box,
    process::ExitCode,
    time::{Duration, Instant},
};

use jobs::{Kind, kinds};
use jsx_lowering::Workspace;
use oracle::measured::{Job, Output};

mod arena;
mod jobs;

#[global_allocator]
static ALLOCATOR: arena::Memory = arena::Memory::new();

const ROUNDS: usize = 21;

/// The memory of the port's targets, which goes from job to job and is not cleared.
#[derive(Default)]
struct Memory {
    workspace: Workspace,
    buffers: (Vec<u8>, Vec<u8>),
}

/// The job by the port: open, every root, the records. Hands its calls, notices and records on.
fn port<T>(
    job: &Job,
    one_by_one: bool,
    memory: &mut Memory,
    take: impl FnOnce(&[u8], &[u8], &[u8]) -> T,
) -> Option<T> {
    let text = job.text.as_bytes();
    if !one_by_one {
        let output = memory.workspace.lower(text, &job.opening, &job.roots).ok()?;
        return Some(take(output.calls, output.notices, output.records()));
    }
    let buffers = std::mem::take(&mut memory.buffers);
    let mut open = jsx_lowering::Job::open_in(text, &job.opening, buffers).ok()?;
    for root in &job.roots {
        open.lower_root(root).ok()?;
    }
    let taken = take(open.calls(), open.notices(), &open.records().ok()?);
    memory.buffers = open.into_buffers();
    Some(taken)
}

fn port_output(job: &Job, one_by_one: bool) -> Option<Output> {
    port(job, one_by_one, &mut Memory::default(), |calls, notices, records| Output {
        calls: calls.to_vec(),
        notices: notices.to_vec(),
        records: records.to_vec(),
    })
}

fn timed(work: impl FnOnce()) -> Duration {
    let began = Instant::now();
    work();
    began.elapsed()
}

/// Runs with the arena. What the jobs take is dropped before it ends, and what the Rust keeps between jobs has grown before.
fn in_arena(work: impl FnOnce() -> Duration) -> Duration {
    // SAFETY: so nothing that was taken is in use after it.
    unsafe { ALLOCATOR.with_arena(work) }
}

/// Seconds for each byte of the root tapes.
struct Costs {
    port: f64,
    /// From tapes to tapes, and the Rust's own files alone; with the system's memory and with an arena.
    whole: [f64; 2],
    alone: [f64; 2],
}

/// The jobs of a kind, one after the other, and again.
fn again(kind: &Kind, repeat: usize) -> impl Iterator<Item = &Job> {
    (0..repeat).flat_map(|_| &kind.jobs)
}

fn measure(kind: &Kind) -> Costs {
    let mut times = [const { Vec::new() }; 5];
    let mut memory = Memory::default();
    // rounds of some milliseconds each
    let repeat = 1 + 200_000 / kind.tape_bytes().max(kind.text_bytes());
    for _ in 0..ROUNDS {
        let sums = [
            timed(|| {
                for job in again(kind, repeat) {
                    port(job, kind.one_by_one, &mut memory, |calls, notices, records| {
                        black_box((calls, notices, records));
                    })
                    .unwrap();
                }
            }),
            timed(|| {
                for job in again(kind, repeat) {
                    black_box(job.run(true).unwrap());
                }
            }),
            // the arena is emptied between jobs, and what is read before a tree is lowered is not measured
            again(kind, repeat)
                .map(|job| in_arena(|| timed(|| drop(black_box(job.run(false).unwrap())))))
                .sum(),
            again(kind, repeat).map(|job| job.lower(true).unwrap()).sum(),
            again(kind, repeat).map(|job| in_arena(|| job.lower(false).unwrap())).sum(),
        ];
        for (list, sum) in times.iter_mut().zip(sums) {
            list.push(sum);
        }
    }
    let [port, whole, whole_arena, alone, alone_arena] = times.map(|mut list| {
        list.sort();
        list[list.len() / 2].as_secs_f64() / (repeat * kind.tape_bytes()) as f64
    });
    Costs { port, whole: [whole, whole_arena], alone: [alone, alone_arena] }
}

fn main() -> ExitCode {
    let kinds = kinds();
    let arguments: Vec<String> = env::args().skip(1).collect();
    match &arguments[..] {
        [] => {}
        [flag] if flag == "--kinds" => {
            for kind in &kinds {
                println!("{}", kind.name);
            }
            return ExitCode::SUCCESS;
        }
        [flag, name] if flag == "--port" && kinds.iter().any(|kind| kind.name == name) => {
            let kind = kinds.iter().find(|kind| kind.name == name).unwrap();
            for job in &kind.jobs {
                black_box(port_output(job, kind.one_by_one).unwrap());
            }
            println!("{}", kind.tape_bytes());
            return ExitCode::SUCCESS;
        }
        _ => {
            eprintln!("bench [--kinds | --port KIND]");
            return ExitCode::FAILURE;
        }
    }

    // Both sides must give the same before anything is measured. It also lets what the Rust keeps between jobs grow.
    for kind in &kinds {
        for (number, job) in kind.jobs.iter().enumerate() {
            if port_output(job, kind.one_by_one) != job.run(true) {
                eprintln!("{}, job {number}: the two sides differ", kind.name);
                return ExitCode::FAILURE;
            }
            job.lower(true);
        }
    }

    println!("                                                   the Rust's time / the port's");
    println!(
        "                                                   from tapes to tapes   its files alone   cost of a byte"
    );
    println!(
        "kind                    jobs  roots   tapes   texts    system    arena    system   arena   port   Rust"
    );
    let mut unit = None;
    for kind in &kinds {
        let costs = measure(kind);
        if env::var_os("NANOSECONDS").is_some() {
            eprintln!("{}: {:.2} ns for a byte", kind.name, costs.port * 1e9);
        }
        print!(
            "{:<22} {:>5} {:>6} {:>7} {:>7} {:>9.2} {:>8.2} {:>9.2} {:>7.2}",
            kind.name,
            kind.jobs.len(),
            kind.jobs.iter().map(|job| job.roots.len()).sum::<usize>(),
            kind.tape_bytes(),
            kind.text_bytes(),
            costs.whole[0] / costs.port,
            costs.whole[1] / costs.port,
            costs.alone[0] / costs.port,
            costs.alone[1] / costs.port,
        );
        // against the first of the three sizes
        if kind.name.ends_with("KiB") {
            let (port, rust) = *unit.get_or_insert((costs.port, costs.whole[1]));
            print!(" {:>6.2} {:>6.2}", costs.port / port, costs.whole[1] / rust);
        }
        println!();
    }
    ExitCode::SUCCESS
}
