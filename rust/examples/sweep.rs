//! The acceptance verdict about a recording of a noise source, in words.
//!
//!     cargo run --release --manifest-path rust/Cargo.toml --example sweep -- FILE [BLOCK_SIZE] [LEVEL] [--low-first]
//!
//! BLOCK_SIZE is in bits, 8 where it is left out. LEVEL is how often a fair source may be rejected, 0.001 where it is left out. With --low-first the first bit
//! of a byte is its lowest. The status is 0 for a verdict, 1 where the recording is refused, 2 for bad usage or a file that cannot be read.

use jimrawel::{plan, sweep, BitOrder, Refusal, Sweep, Tested, Verdict};
use std::process::ExitCode;

const USAGE: &str = "usage: sweep FILE [BLOCK_SIZE in bits] [LEVEL, such as 0.001] [--low-first]";

/// What is asked for.
struct Asked {
    file: String,
    block_size: usize,
    level: f64,
    bit_order: BitOrder,
}

fn asked() -> Option<Asked> {
    let (options, words): (Vec<String>, Vec<String>) = std::env::args().skip(1).partition(|word| word.starts_with("--"));
    let bit_order = match options.iter().map(String::as_str).collect::<Vec<_>>()[..] {
        [] => BitOrder::HighFirst,
        ["--low-first"] => BitOrder::LowFirst,
        _ => return None,
    };
    let file = words.first()?.clone();
    let block_size = words.get(1).map_or(Some(8), |word| word.parse().ok())?;
    let level = words.get(2).map_or(Some(0.001), |word| word.parse().ok())?;
    (words.len() <= 3).then_some(Asked { file, block_size, level, bit_order })
}

fn main() -> ExitCode {
    let Some(asked) = asked() else {
        eprintln!("{USAGE}");
        return ExitCode::from(2);
    };
    let recording = match std::fs::read(&asked.file) {
        Ok(recording) => recording,
        Err(error) => {
            eprintln!("{}: {error}", asked.file);
            return ExitCode::from(2);
        }
    };
    // A power of two changes no digit of a double, and what is left of a unit is dropped.
    let level = (asked.level * UNIT as f64) as u64;
    match sweep(&recording, asked.block_size, asked.bit_order, level) {
        Ok(swept) => {
            print_sweep(&asked, recording.len(), level, &swept);
            ExitCode::SUCCESS
        }
        Err(refusal) => {
            eprintln!("{}: not swept (refusal {}): {}", asked.file, refusal.number(), in_words(refusal));
            ExitCode::FAILURE
        }
    }
}

fn in_words(refusal: Refusal) -> &'static str {
    match refusal {
        Refusal::Level => "the level has to be a chance above 0 and below 1, and at least 2^-40",
        Refusal::BlockSize => "the block size has to be a multiple of 8 from 8 to 4,096 bits",
        Refusal::Full => "the recording is too long, 33,554,433 bytes are the most; sweep it in parts",
        Refusal::FewBlocks => "the recording is too short, it has not two bytes",
        _ => "no sweep is refused so",
    }
}

fn print_sweep(asked: &Asked, bytes: usize, level: u64, swept: &Sweep) {
    let pairs = plan(asked.block_size, bytes).expect("a recording that was swept has a plan");
    let share = level / pairs.len() as u64;
    let first = if asked.bit_order == BitOrder::LowFirst { "lowest" } else { "highest" };
    println!("recording     {}, {bytes} bytes, the {first} bit of a byte first", asked.file);
    print!("plan          ");
    println!("{}", pairs.iter().map(|(size, width)| format!("{width} of {size} bits")).collect::<Vec<_>>().join(", "));
    println!("level         {}, of which each of {} pairs has a share of {}", asked.level, pairs.len(), down(share));
    println!("verdict       {}", verdict(swept.verdict));
    if share == 0 {
        println!("              but at so small a level the share is 0, and nothing is ever rejected");
    }
    // So wide is a bracket, whatever the positive blocks: at a share that is no larger nothing is rejected.
    let apart = swept.best.bracket.high - swept.best.bracket.low;
    if swept.verdict == Verdict::Undecided && share <= apart {
        println!("              they are {} apart, so that this pair needs a level above {}", up(apart), up(apart * pairs.len() as u64));
    }
    println!("pairs tested  {} of {}", swept.pairs_tested, pairs.len());
    if swept.verdict == Verdict::Rejected {
        print_pair("the pair that is rejected", &swept.last);
    }
    if swept.verdict != Verdict::Rejected || swept.best != swept.last {
        print_pair("the pair with the lowest chance", &swept.best);
    }
}

fn verdict(verdict: Verdict) -> &'static str {
    match verdict {
        Verdict::Rejected => "REJECTED: the chance of a fair source to do as well is below the share",
        Verdict::Undecided => "UNDECIDED: a chance may be below the share, its two bounds do not tell",
        Verdict::NotRejected => "NOT REJECTED: no chance is below the share",
    }
}

fn print_pair(name: &str, tested: &Tested) {
    let Tested { finding, blocks, positive, bracket } = tested;
    let (width, bins) = (finding.bits().len(), finding.order().len());
    let fair = *blocks as f64 * finding.division() as f64 / bins as f64;
    println!("\n{name}");
    println!("  block size  {} bits", finding.block_size());
    println!("  width       {width} bits");
    println!("  bits        {}", finding.bits().iter().map(u32::to_string).collect::<Vec<_>>().join(" "));
    println!("  division    {} of the {bins} values of these bits, the most frequent in the first half", finding.division());
    println!("  positive    {positive} of {blocks} blocks of the second half have such a value; a fair source has {fair:.1} in the mean");
    println!("  chance      between {} and {} that a fair source has as many or more", down(bracket.low), up(bracket.high));
}

/// The units in a chance of 1, and the decimal places that are printed.
const UNIT: u64 = 1 << 40;
const PLACES: u64 = 1_000_000_000;

/// A chance in units of 2^-40 as a decimal number that is not above it.
fn down(units: u64) -> String {
    decimal((units as u128 * PLACES as u128 / UNIT as u128) as u64)
}

/// .. and as one that is not below it, where it is a chance at all: an upper end may be above 1.
fn up(units: u64) -> String {
    decimal((units.min(UNIT) as u128 * PLACES as u128).div_ceil(UNIT as u128) as u64)
}

fn decimal(places: u64) -> String {
    format!("{}.{:09}", places / PLACES, places % PLACES)
}
