//! Compares the port with the original, and says how often; the first difference is printed with its whole input, and the
//! status is then 1.
use compare::dice::Dice;
use compare::difference::{Outcome, Tally, SORTS};
use compare::kinds::{catalogue, Kinds};
use compare::lives::{hush, lead, lead_to, Lives};
use compare::looks::Looker;
use compare::memory::Watched;
use compare::{record, small, texts};
use std::path::PathBuf;
use std::process::ExitCode;
use std::time::Instant;

#[global_allocator]
static WATCHED: Watched = Watched;

const USAGE: &str = "compare [--seed N] [--rounds N] [--all-text] [--plant SORT] | --record FOLDER | --sorts";

struct Asked {
    seed: u64,
    rounds: usize,
    all_text: bool,
    plant: Option<String>,
    record: Option<PathBuf>,
    sorts: bool,
}

fn asked() -> Option<Asked> {
    let mut asked = Asked { seed: 1, rounds: 30, all_text: false, plant: None, record: None, sorts: false };
    let mut words = std::env::args().skip(1);
    while let Some(word) = words.next() {
        match word.as_str() {
            "--seed" => asked.seed = words.next()?.parse().ok()?,
            "--rounds" => asked.rounds = words.next()?.parse().ok()?,
            "--all-text" => asked.all_text = true,
            "--plant" => asked.plant = Some(words.next()?),
            "--sorts" => asked.sorts = true,
            "--record" => asked.record = Some(words.next()?.into()),
            _ => return None,
        }
    }
    Some(asked)
}

fn main() -> ExitCode {
    let Some(asked) = asked() else {
        eprintln!("{USAGE}");
        return ExitCode::from(2);
    };
    if asked.sorts {
        SORTS.iter().for_each(|sort| println!("{sort}"));
        return ExitCode::SUCCESS;
    }
    hush();
    let kinds = catalogue();
    if let Some(folder) = &asked.record {
        return match record::record(asked.seed, &kinds, folder) {
            Ok(()) => ExitCode::SUCCESS,
            Err(error) => {
                eprintln!("{}: {error}", folder.display());
                ExitCode::FAILURE
            }
        };
    }
    let begun = Instant::now();
    let mut tally = Tally::new(asked.plant.clone());
    let outcome = compare(&asked, &kinds, &mut tally);
    for (sort, count) in tally.counts() {
        println!("{count:>12}  {sort}");
    }
    println!("{} kinds and orders, seed {}, {} rounds, {:.1} s", kinds.len(), asked.seed, asked.rounds, begun.elapsed().as_secs_f64());
    match outcome {
        Ok(()) => {
            println!("no difference");
            ExitCode::SUCCESS
        }
        Err(difference) => {
            println!("{difference}");
            ExitCode::FAILURE
        }
    }
}

fn compare(asked: &Asked, kinds: &Kinds, tally: &mut Tally) -> Outcome {
    let mut dice = Dice::new(asked.seed);
    let mut looker = Looker::new();
    let mut lives = Lives::default();
    for _ in 0..asked.rounds {
        for kind in kinds {
            let life = lead_to(&mut dice, &**kind);
            let archive = lives.compare(tally, &mut dice, &life)?;
            let (kind, place) = life.records[0];
            looker.look_around(tally, &mut dice, kind, &archive, place)?;
        }
        for _ in 0..2 * kinds.len() {
            let life = lead(&mut dice, kinds, 12);
            tally.count("lives");
            let archive = lives.compare(tally, &mut dice, &life)?;
            for (kind, place) in &life.records {
                looker.look(tally, *kind, &archive, *place)?;
            }
        }
        texts::random(tally, &mut dice, 10_000)?;
    }
    small::tiny(tally, &mut looker, kinds)?;
    small::distances(tally, &mut looker, kinds)?;
    small::lengths(tally, &mut looker, kinds)?;
    small::inline(tally, &mut looker, kinds)?;
    texts::short(tally)?;
    texts::long(tally)?;
    if asked.all_text {
        texts::all_of_four(tally)?;
    }
    Ok(())
}
