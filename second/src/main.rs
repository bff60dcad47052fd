//! The command line: makes an input, or answers one.

use std::ffi::OsString;
use std::io::{self, BufReader, BufWriter, Read, Write};
use std::process::ExitCode;

use second::navigation::file;
use second::salvage::salvage;
use second::station::card;
use second::{listing, logger, make, sky, trial};

const USAGE: &str = "usage:
  second make trial SEED           write an input for trial
  second make words SEED           write an input for trial: requests 1 to 5 alone
  second make tallies              write an input for trial: a repair on each of 65,540 strings
  second make limit                write an input for a trial with tallies near their limit
  second make listing SEED COUNT   write COUNT records for the listing
  second make block SEED COUNT     write a block of COUNT fields and one that is refused
  second make logger SEED          write 2,000 plain strings for the logger
  second make torn SEED BYTES      write a torn file of so many bytes
  second make torn-edges SEED      write a torn file for windows of 256 KiB
  second make navigation SEED      write records for the navigation file
  second make sky SEED             write the words of a sky
  second make calls SEED COUNT     write COUNT requests for trial: all calls of a card's program
  second make card                 write what two cards hear, as a block of each for every second
  second make card trial           write the same blocks as an input for trial
  second make sample               write a few records for the listing
  second make sample trial         write the same records as an input for trial
  second answer trial              read an input for trial, write the expected output
  second answer limit              the same, every tally beginning at 4,294,967,293
  second answer listing            read records, write the expected lines
  second answer block              read one block, write the expected lines
  second answer logger             read plain strings, write the expected lines
  second answer salvage            read a torn file, write the fields that are kept
  second answer salvage-list       read a torn file, write a line for each skipped stretch
  second answer salvage-records    read a torn file, write the records of the kept offers
  second answer navigation         read records, write the navigation file of card one
  second answer navigation-two     read records, write the navigation file of card two
  second answer sky                read the words of a sky, write its line symbols
SEED, COUNT and BYTES are decimal numbers from 0 to 18446744073709551615.";

const WRONG_ARGUMENTS: u8 = 2;

enum Command {
    MakeTrial { seed: u64 },
    MakeWords { seed: u64 },
    MakeTallies,
    MakeLimit,
    MakeSampleTrial,
    MakeListing { seed: u64, count: u64 },
    MakeBlock { seed: u64, count: u64 },
    MakeLogger { seed: u64 },
    MakeTorn { seed: u64, count: u64 },
    MakeTornEdges { seed: u64 },
    MakeNavigation { seed: u64 },
    MakeSky { seed: u64 },
    MakeSampleListing,
    MakeCalls { seed: u64, count: u64 },
    MakeCard,
    MakeCardTrial,
    AnswerTrial,
    AnswerLimit,
    AnswerListing,
    AnswerBlock,
    AnswerLogger,
    AnswerSalvage,
    AnswerSalvageList,
    AnswerSalvageRecords,
    AnswerNavigation { card: u8 },
    AnswerSky,
}

fn main() -> ExitCode {
    let arguments: Vec<OsString> = std::env::args_os().skip(1).collect();
    let Some(command) = parse(&arguments) else {
        eprintln!("{USAGE}");
        return ExitCode::from(WRONG_ARGUMENTS);
    };
    match run(command) {
        Ok(()) => ExitCode::SUCCESS,
        Err(error) => {
            eprintln!("second: {error}");
            ExitCode::FAILURE
        }
    }
}

fn parse(arguments: &[OsString]) -> Option<Command> {
    let arguments: Option<Vec<&str>> = arguments.iter().map(|word| word.to_str()).collect();
    let command = match arguments?.as_slice() {
        ["make", "trial", seed] => Command::MakeTrial {
            seed: seed.parse().ok()?,
        },
        ["make", "words", seed] => Command::MakeWords {
            seed: seed.parse().ok()?,
        },
        ["make", "tallies"] => Command::MakeTallies,
        ["make", "limit"] => Command::MakeLimit,
        ["make", "sample", "trial"] => Command::MakeSampleTrial,
        ["make", "listing", seed, count] => Command::MakeListing {
            seed: seed.parse().ok()?,
            count: count.parse().ok()?,
        },
        ["make", "block", seed, count] => Command::MakeBlock {
            seed: seed.parse().ok()?,
            count: count.parse().ok()?,
        },
        ["make", "logger", seed] => Command::MakeLogger {
            seed: seed.parse().ok()?,
        },
        ["make", "torn", seed, count] => Command::MakeTorn {
            seed: seed.parse().ok()?,
            count: count.parse().ok()?,
        },
        ["make", "torn-edges", seed] => Command::MakeTornEdges {
            seed: seed.parse().ok()?,
        },
        ["make", "navigation", seed] => Command::MakeNavigation {
            seed: seed.parse().ok()?,
        },
        ["make", "sky", seed] => Command::MakeSky {
            seed: seed.parse().ok()?,
        },
        ["make", "sample"] => Command::MakeSampleListing,
        ["make", "calls", seed, count] => Command::MakeCalls {
            seed: seed.parse().ok()?,
            count: count.parse().ok()?,
        },
        ["make", "card"] => Command::MakeCard,
        ["make", "card", "trial"] => Command::MakeCardTrial,
        ["answer", "trial"] => Command::AnswerTrial,
        ["answer", "limit"] => Command::AnswerLimit,
        ["answer", "listing"] => Command::AnswerListing,
        ["answer", "block"] => Command::AnswerBlock,
        ["answer", "logger"] => Command::AnswerLogger,
        ["answer", "salvage"] => Command::AnswerSalvage,
        ["answer", "salvage-list"] => Command::AnswerSalvageList,
        ["answer", "salvage-records"] => Command::AnswerSalvageRecords,
        ["answer", "navigation"] => Command::AnswerNavigation { card: card::ONE },
        ["answer", "navigation-two"] => Command::AnswerNavigation { card: card::TWO },
        ["answer", "sky"] => Command::AnswerSky,
        _ => return None,
    };
    Some(command)
}

fn run(command: Command) -> io::Result<()> {
    let mut output = BufWriter::new(io::stdout().lock());
    match command {
        Command::MakeTrial { seed } => output.write_all(&make::trial_input(seed))?,
        Command::MakeWords { seed } => output.write_all(&make::words_input(seed))?,
        Command::MakeTallies => output.write_all(&make::tallies_input())?,
        Command::MakeLimit => output.write_all(&make::limit_input())?,
        Command::MakeSampleTrial => output.write_all(&make::sample_for_trial())?,
        Command::MakeListing { seed, count } => make::write_listing(seed, count, &mut output)?,
        Command::MakeBlock { seed, count } => output.write_all(&make::block(seed, count))?,
        Command::MakeLogger { seed } => output.write_all(&make::logger_input(seed))?,
        Command::MakeTorn { seed, count } => make::write_torn(seed, count, &mut output)?,
        Command::MakeTornEdges { seed } => output.write_all(&make::torn_edges(seed))?,
        Command::MakeNavigation { seed } => output.write_all(&make::navigation_input(seed))?,
        Command::MakeSky { seed } => output.write_all(&make::sky_words(seed))?,
        Command::MakeSampleListing => output.write_all(&make::sample_for_listing())?,
        Command::MakeCalls { seed, count } => make::write_calls(seed, count, &mut output)?,
        Command::MakeCard => output.write_all(&make::card())?,
        Command::MakeCardTrial => output.write_all(&make::card_for_trial())?,
        Command::AnswerTrial => {
            output.write_all(trial::answer_input(&whole_input()?).as_bytes())?
        }
        Command::AnswerLimit => {
            let lines = trial::answer_input_near_the_limit(&whole_input()?);
            output.write_all(lines.as_bytes())?
        }
        Command::AnswerListing => {
            listing::answer_stream(BufReader::new(io::stdin().lock()), &mut output)?
        }
        Command::AnswerBlock => {
            output.write_all(trial::answer_block(&whole_input()?).as_bytes())?
        }
        Command::AnswerLogger => {
            logger::answer_stream(BufReader::new(io::stdin().lock()), &mut output)?
        }
        Command::AnswerSalvage => output.write_all(&salvage(&whole_input()?).kept)?,
        Command::AnswerSalvageList => {
            output.write_all(salvage(&whole_input()?).list().as_bytes())?
        }
        Command::AnswerSalvageRecords => output.write_all(&salvage(&whole_input()?).records())?,
        Command::AnswerNavigation { card } => {
            file::answer_stream(card, BufReader::new(io::stdin().lock()), &mut output)?
        }
        Command::AnswerSky => output.write_all(&sky::answer_input(&whole_input()?))?,
    }
    output.flush()
}

fn whole_input() -> io::Result<Vec<u8>> {
    let mut input = Vec::new();
    io::stdin().read_to_end(&mut input)?;
    Ok(input)
}
