//! What the programs do, in plain Rust: scripts of nodes, and the workloads of scp_bench but for those of quorums.
mod ballots;
mod board;
mod consensus;
mod decode;
mod envelope;
mod hex;
mod kv;
mod ledger;
mod link;
mod node;
mod nominate;
mod outbox;
mod pending;
mod quorum;
mod script;
mod sha256;
mod slot;
mod types;
mod votes;
mod wire;
mod xdr;

use std::process::ExitCode;

fn main() -> ExitCode {
    let words: Vec<String> = std::env::args().collect();
    let [_, workload, size] = &words[..] else {
        eprintln!(
            "usage: baselines decode|votes-one|votes-each|consensus-4|consensus-8|consensus-16 SIZE, or baselines play 1 < SCRIPT"
        );
        return ExitCode::from(2);
    };
    let Ok(size) = size.parse() else {
        return ExitCode::from(2);
    };
    let line = match workload.as_str() {
        "decode" => decode::decode_records(size),
        "votes-one" => votes::count_votes(votes::Sharing::One, size),
        "votes-each" => votes::count_votes(votes::Sharing::Each, size),
        "consensus-4" => consensus::decide_slots(4, size),
        "consensus-8" => consensus::decide_slots(8, size),
        "consensus-16" => consensus::decide_slots(16, size),
        "play" => {
            return match script::play(std::io::stdin(), std::io::stdout()) {
                Ok(()) => ExitCode::SUCCESS,
                Err(fault) => refuse(fault),
            };
        }
        _ => return ExitCode::from(2),
    };
    match line {
        Ok(line) => {
            println!("{line}");
            ExitCode::SUCCESS
        }
        Err(fault) => refuse(fault),
    }
}

fn refuse(fault: types::Fault) -> ExitCode {
    eprintln!("{fault:?}");
    ExitCode::from(3)
}
