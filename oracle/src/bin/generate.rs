//! Prints scripts in the replay format, the same ones for the same arguments.

#[path = "generate/bad.rs"]
mod bad;
#[path = "generate/bank.rs"]
mod bank;
#[path = "generate/banks.rs"]
mod banks;
#[path = "generate/counts.rs"]
mod counts;
#[path = "generate/draw.rs"]
mod draw;
#[path = "generate/drift.rs"]
mod drift;
#[path = "generate/edges.rs"]
mod edges;
#[path = "generate/engine.rs"]
mod engine;
#[path = "generate/enginebad.rs"]
mod enginebad;
#[path = "generate/lengths.rs"]
mod lengths;
#[path = "generate/orders.rs"]
mod orders;
#[path = "generate/payloads.rs"]
mod payloads;
#[path = "generate/plays.rs"]
mod plays;
#[path = "generate/random.rs"]
mod random;
#[path = "generate/recorded.rs"]
mod recorded;
#[path = "generate/script.rs"]
mod script;
#[path = "generate/sets.rs"]
mod sets;
#[path = "generate/signals.rs"]
mod signals;
#[path = "generate/sources.rs"]
mod sources;
#[path = "generate/writing.rs"]
mod writing;

use script::Script;

const USAGE: &str = "usage: generate random SEED COUNT  COUNT good records
       generate bad SEED COUNT     up to COUNT good records, a bad line, more lines
       generate all NAME [COUNT]   a whole set; COUNT is for db, the floats spread over all bit patterns
       generate names              the names of the sets
       generate engine NAME SEED COUNT  a run of an engine: COUNT banks for banks and payloads, all orders of COUNT calls for orders
                                   and waitorders, else about or up to COUNT records
       generate engine-names       the names of the runs without frames
       generate frame-names        the names of the runs with frames
       generate recorded [engine|frames]  the recorded list, with an engine's records and its frames if asked
       generate present ...        any of these with boxes of both documents and the records of the present rules; names of the sets
                                   that these add, names of all runs";

fn main() {
    let arguments: Vec<String> = std::env::args().skip(1).collect();
    let arguments: Vec<&str> = arguments.iter().map(String::as_str).collect();
    if print(&arguments).is_none() {
        eprintln!("{USAGE}");
        std::process::exit(2);
    }
}

fn print(arguments: &[&str]) -> Option<()> {
    let mut script = Script::new();
    let arguments = match arguments {
        ["present", rest @ ..] => {
            script.present = true;
            rest
        }
        all => all,
    };
    match arguments {
        ["random", seed, count] => {
            random_script(&mut script, seed.parse().ok()?, count.parse().ok()?)
        }
        ["bad", seed, count] => bad::print(&mut script, seed.parse().ok()?, count.parse().ok()?),
        ["all", name] => sets::print(&mut script, name, sets::FLOATS)?,
        ["all", name, count] => sets::print(&mut script, name, count.parse().ok()?)?,
        ["engine", name, seed, count] => {
            engine::print(&mut script, name, seed.parse().ok()?, count.parse().ok()?)?
        }
        ["names"] if script.present => names(&mut script, &sets::PRESENT_SETS),
        ["names"] => names(&mut script, &sets::SETS),
        ["engine-names"] => {
            names(&mut script, &engine::NAMES);
            if script.present {
                names(&mut script, &engine::PRESENT_NAMES);
            }
        }
        ["frame-names"] => {
            names(&mut script, &engine::FRAME_NAMES);
            if script.present {
                names(&mut script, &engine::PRESENT_FRAME_NAMES);
            }
        }
        ["recorded"] => recorded::print(&mut script, None),
        ["recorded", "engine"] => recorded::print(&mut script, Some(false)),
        ["recorded", "frames"] => recorded::print(&mut script, Some(true)),
        _ => return None,
    }
    script.finish();
    Some(())
}

fn names<T>(script: &mut Script, named: &[(&str, T)]) {
    for (name, _) in named {
        script.add(name.as_bytes());
    }
}

fn random_script(script: &mut Script, seed: u64, count: u64) {
    let mut draw = script.draw(seed);
    for _ in 0..count {
        script.add(&random::any(&mut draw));
    }
    // The last line may lack its newline, so half of the scripts lack it.
    script.ends_with_newline = seed.is_multiple_of(2);
}
