//! The words of `serve`.

const MAX_LIFE: u64 = 1 << 24;

/// How many workers and how many clerks there may be.
const MAX_ENDS: u64 = 8;

pub struct Arguments {
    pub ingress: String,
    pub control: String,
    pub uplink: String,
    pub audit: String,
    pub life: u64,
    pub workers: usize,
    pub clerks: usize,
    pub until_eof: bool,
    pub verbose: bool,
}

/// A word that has to be there, or was not there yet.
fn set(option: &mut Option<String>, word: Option<&String>) -> Option<()> {
    if option.is_some() {
        return None;
    }
    *option = Some(word?.clone());
    Some(())
}

fn number(word: Option<String>, most: u64) -> Option<u64> {
    word?.parse().ok().filter(|number| (1..=most).contains(number))
}

/// Reads the words behind `serve`.
pub fn read(words: &[String]) -> Option<Arguments> {
    let [mut ingress, mut control, mut uplink, mut audit, mut life, mut workers, mut clerks] = [const { None }; 7];
    let (mut until_eof, mut verbose) = (false, false);
    let mut words = words.iter();
    while let Some(word) = words.next() {
        match word.as_str() {
            "--ingress" => set(&mut ingress, words.next())?,
            "--control" => set(&mut control, words.next())?,
            "--uplink" => set(&mut uplink, words.next())?,
            "--audit" => set(&mut audit, words.next())?,
            "--life" => set(&mut life, words.next())?,
            "--workers" => set(&mut workers, words.next())?,
            "--clerks" => set(&mut clerks, words.next())?,
            "--until-eof" => until_eof = true,
            "--verbose" => verbose = true,
            _ => return None,
        }
    }
    Some(Arguments {
        ingress: ingress?,
        control: control?,
        uplink: uplink?,
        audit: audit?,
        life: number(life, MAX_LIFE)?,
        workers: number(workers, MAX_ENDS)? as usize,
        clerks: number(clerks.or(Some("1".to_string())), MAX_ENDS)? as usize,
        until_eof,
        verbose,
    })
}
