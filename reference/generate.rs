//! Writes day files, good and bad ones, fixed by a seed.
//!
//! `generate SEED COUNT DIR` writes DIR/000000.day and so on; `generate --worst FILE` and
//! `generate --ordinary FILE` write a day to take the time of.

#[path = "generate/aim.rs"]
mod aim;
#[path = "generate/bench.rs"]
mod bench;
#[path = "generate/good.rs"]
mod good;
#[path = "generate/maker.rs"]
mod maker;
#[path = "generate/rng.rs"]
mod rng;
#[path = "generate/spoil.rs"]
mod spoil;
#[path = "generate/style.rs"]
mod style;

use std::path::Path;
use std::process::ExitCode;

use rng::Rng;

/// What kind of file comes how often among a hundred.
const MIX: [(Kind, u64); 11] = [
    (Kind::Mixed, 5),
    (Kind::Theme, 30),
    (Kind::Large, 3),
    (Kind::Size, 3),
    (Kind::Aimed, 35),
    (Kind::Wild, 7),
    (Kind::Cut, 4),
    (Kind::Mutated, 4),
    (Kind::Noise, 2),
    (Kind::WrongStage, 4),
    (Kind::AfterEnd, 3),
];

#[derive(Clone, Copy)]
enum Kind {
    Mixed,
    Theme,
    Large,
    Size,
    Aimed,
    Wild,
    Cut,
    Mutated,
    Noise,
    WrongStage,
    AfterEnd,
}

/// The kind of a file, and how many of that kind come before it.
fn kind_of(index: u64) -> (Kind, u64) {
    // 37 has no factor in common with 100, so every hundred files has the whole mix.
    let mut slot = index * 37 % 100;
    for (kind, often) in MIX {
        if slot < often {
            return (kind, index / 100 * often + slot);
        }
        slot -= often;
    }
    unreachable!("the mix adds up to a hundred")
}

fn file(seed: u64, index: u64) -> Vec<u8> {
    let mut rng = Rng::for_file(seed, index);
    let rng = &mut rng;
    let (kind, rank) = kind_of(index);
    let style = match kind {
        Kind::Mixed => style::Style::any(rng),
        Kind::Theme => style::theme(rank % style::THEMES, rng),
        Kind::Large => style::large(rng),
        Kind::Size => return spoil::about_greatest(rank, rng),
        Kind::Aimed => return aim::aimed(rank, rng),
        Kind::Wild => return aim::wild(rng),
        Kind::Cut => return spoil::cut(rng),
        Kind::Mutated => return spoil::mutated(rng),
        Kind::Noise => return spoil::noise(rng),
        Kind::WrongStage => return spoil::wrong_stage(rng),
        Kind::AfterEnd => return spoil::after_end(rng),
    };
    let mut maker = good::day(&style, rng);
    maker.close_day();
    maker.bytes
}

fn run(arguments: &[String]) -> Result<(), String> {
    let write = |path: &Path, bytes: &[u8]| {
        std::fs::write(path, bytes).map_err(|error| format!("{}: {error}", path.display()))
    };
    match arguments {
        [mode, path] if mode == "--worst" => write(Path::new(path), &bench::worst().bytes),
        [mode, path] if mode == "--ordinary" => write(Path::new(path), &bench::ordinary().bytes),
        [seed, count, folder] => {
            let seed = seed.parse().map_err(|_| "SEED is not a number")?;
            let count: u64 = count.parse().map_err(|_| "COUNT is not a number")?;
            std::fs::create_dir_all(folder).map_err(|error| format!("{folder}: {error}"))?;
            for index in 0..count {
                let path = Path::new(folder).join(format!("{index:06}.day"));
                write(&path, &file(seed, index))?;
            }
            Ok(())
        }
        _ => Err("generate SEED COUNT DIR | --worst FILE | --ordinary FILE".to_string()),
    }
}

fn main() -> ExitCode {
    let arguments: Vec<String> = std::env::args().skip(1).collect();
    match run(&arguments) {
        Ok(()) => ExitCode::SUCCESS,
        Err(message) => {
            eprintln!("generate: {message}");
            ExitCode::FAILURE
        }
    }
}
