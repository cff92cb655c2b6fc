//! Runs a script over an empty store.
use recipe_store::{Answer, Capacities, Store};

/// The program `recipe` has this store and takes scripts of at most this many bytes.
const PROGRAM: Capacities = Capacities { operations: 128, blocks: 64, regions: 64, values: 256, uses: 512 };
const SCRIPT_BYTES: usize = 16384;

fn capacities(word: &str) -> Result<Capacities, String> {
    let wrong = || format!("{word} is not five numbers O,B,R,V,U");
    let numbers = word.split(',').map(|number| number.parse().map_err(|_| wrong())).collect::<Result<Vec<u32>, String>>()?;
    match numbers[..] {
        [operations, blocks, regions, values, uses] => Ok(Capacities { operations, blocks, regions, values, uses }),
        _ => Err(wrong()),
    }
}

/// What the program prints for this script. With capacities of one's own a script of any length is run.
pub fn run(script: &[u8], chosen: Option<&str>) -> Result<String, String> {
    if chosen.is_none() && script.len() > SCRIPT_BYTES {
        return Ok("script too long\n".to_string());
    }
    let size = chosen.map_or(Ok(PROGRAM), capacities)?;
    let (mut words, mut scratch) = (vec![0; size.store_words()], vec![0; size.scratch_words()]);
    let mut store = Store::start(&mut words, &mut scratch, size).map_err(|refusal| refusal.to_string())?;
    let mut answers = vec![Answer::default(); script.len() / 4 + 1];
    let ran = store.script(script, &mut answers);
    if let Some(refusal) = ran.ended {
        return Err(refusal.to_string());
    }
    let mut out = vec![0; size.listing_bytes(ran.answers.len())];
    store.view().listing(ran.answers, &mut out).map(str::to_string).map_err(|refusal| refusal.to_string())
}
