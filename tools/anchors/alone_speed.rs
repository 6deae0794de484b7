//! 84,000 rounds of a job's replicas over words, for tools/speed/measure_alone.py. With one word on the command
//! line each takes turns through a port, with two it is asked for `next` and gets the word by `take`, with
//! three by `take_and_next`. It is built without proofs.
#![tactic(auto)]

use lone_replica::{Next, Replica};
use lone_words::Access;
use mu_input::{Job, read};
use mu_io::{StdSource, read_all};
use mu_model::NoMemory;
use mu_node::{Node, Zeal};
use mu_port::Memory;
use mu_words::Move;
use mu_shell::words_after_name;
use std::alloc::Global;
use std::process::ExitCode;
use word_fabric::WordFabric;

/// How often each replica has its turn: as often as the job takes.
const ROUNDS: u32 = 84_000;

/// The word that a move leaves.
fn made(step: Move, word: u64) -> u64 {
    match step {
        Move::Load => word,
        Move::Store(new) => new,
        Move::Raise(least) => least.max(word),
        Move::Add => word + 1,
        Move::SetBits(bits) => word | bits,
        Move::Exchange(old, new) => {
            if old == word { new } else { word }
        }
        Move::Swap(new) => new,
    }
}

/// Turns through a port.
fn direct(alloc: Global, job: &Job) -> Result<u32, NoMemory> {
    let n = job.config.replicas;
    let mut nodes: Vec<Node> = Vec::with_capacity(alloc, 7)?;
    for id in 0..n {
        nodes.push_reserved(Node::new(alloc, job, id, Zeal::Plain)?);
    }
    let memory = WordFabric::start(alloc, &job.config)?;
    let mut port = memory.port(0);
    for _ in 0..ROUNDS {
        for id in 0..n {
            port.pass_to(id);
            nodes[usize::from(id)].turn_on(&mut port);
        }
    }
    let mut sum = 0;
    for id in 0..n {
        sum += nodes[usize::from(id)].entries_handed_on().len() as u32;
    }
    Ok(sum)
}

/// Makes an access, and tells the word that it found.
fn access(words: &mut [u64], each: usize, access: Access) -> u64 {
    let at = usize::from(access.spot.host) * each + access.spot.place as usize;
    let word = words[at];
    words[at] = made(access.step, word);
    word
}

/// The same by values that touch no memory, in one call a step or in two.
fn alone(alloc: Global, job: &Job, both: bool) -> Result<u32, NoMemory> {
    let n = job.config.replicas;
    let rows = job.config.rows.len() as u16;
    let mut group: Vec<Replica> = Vec::with_capacity(alloc, 7)?;
    for id in 0..n {
        group.push_reserved(Replica::new(alloc, job, id, Zeal::Plain, rows)?);
    }
    let each = group[0].shape().words() as usize;
    let mut words = vec![in alloc; 0; each * usize::from(n)]?;
    for id in 0..n {
        words[each * usize::from(id)] = 14_336;
    }
    if both {
        let mut nexts: Vec<Next> = Vec::with_capacity(alloc, 7)?;
        for id in 0..n {
            nexts.push_reserved(group[usize::from(id)].next());
        }
        for _ in 0..ROUNDS {
            for id in 0..n {
                if let Next::Access(a) = nexts[usize::from(id)] {
                    let word = access(words.as_mut_slice(), each, a);
                    match group[usize::from(id)].take_and_next(word) {
                        Ok(next) => nexts[usize::from(id)] = next,
                        Err(_) => return Ok(0),
                    }
                }
            }
        }
    } else {
        for _ in 0..ROUNDS {
            for id in 0..n {
                let replica = &mut group[usize::from(id)];
                if let Next::Access(a) = replica.next() {
                    let word = access(words.as_mut_slice(), each, a);
                    match replica.take(word) {
                        Ok(()) => {}
                        Err(_) => return Ok(0),
                    }
                }
            }
        }
    }
    let mut sum = 0;
    for id in 0..n {
        sum += group[usize::from(id)].entries_handed_on().len() as u32;
    }
    Ok(sum)
}

fn main(rt: HostRuntime) -> ExitCode {
    let mut source = StdSource::new(rt.stdin());
    let words = words_after_name(&rt);
    let count = match words {
        Ok(words) => words.as_slice().len(),
        Err(_) => 0,
    };
    let alloc = rt.alloc();
    match read_all(alloc, &mut source, 1_000_000) {
        Ok(bytes) => match read(alloc, bytes.as_slice()) {
            Ok(job) => {
                let told = match count {
                    1 => direct(alloc, &job),
                    2 => alone(alloc, &job, false),
                    _ => alone(alloc, &job, true),
                };
                match told {
                    Ok(sum) => ExitCode::from((sum % 251) as u8),
                    Err(_) => ExitCode::from(252),
                }
            }
            Err(_) => ExitCode::from(253),
        },
        Err(_) => ExitCode::from(254),
    }
}
