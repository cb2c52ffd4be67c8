//! Two sheets: what they are as one, and the line of a unit.

use crate::files::Input;
use crate::status::Status;
use crate::words::{Given, WrongUse};
use crate::{fail, refuse, refused, show};
use tugrokt::told;

/// The two texts with the names of their files, or why one of them cannot be read.
struct Two {
    names: [String; 2],
    texts: [Vec<u8>; 2],
}

impl Two {
    fn read(inputs: [Input; 2]) -> Result<Two, String> {
        let [one, two] = &inputs;
        Ok(Two { names: [one.name(), two.name()], texts: [one.read()?, two.read()?] })
    }

    fn refused(&self, refusal: told::Refusal) -> Status {
        let ([one, two], [first, second]) = (&self.texts, &self.names);
        refuse(refusal, refused::words_of_two([first, second], [one, two], &refusal))
    }
}

/// The inputs that the last two operands name.
fn inputs(given: &Given) -> Result<[Input; 2], WrongUse> {
    let names = given.operands.iter().rev().take(2).rev().cloned();
    let inputs: Vec<Input> = names.map(Input::named).collect();
    match <[Input; 2]>::try_from(inputs) {
        Ok([Input::Stdin, Input::Stdin]) => Err(WrongUse("standard input cannot be both sheets".to_string())),
        Ok(inputs) => Ok(inputs),
        Err(_) => Err(WrongUse("two files are needed".to_string())),
    }
}

/// Writes two sheets as one.
pub fn merge(given: Given) -> Result<Status, WrongUse> {
    let inputs = inputs(&given)?;
    Ok(Two::read(inputs).map_or_else(|why| fail(&why), |two| {
        let merged = told::merge(&two.texts[0], &two.texts[1]).and_then(|sheet| told::write(&sheet));
        merged.map_or_else(|refusal| two.refused(refusal), |page| show(&page))
    }))
}

/// Writes the line of a unit of two sheets.
pub fn line(given: Given) -> Result<Status, WrongUse> {
    let loader = loader(&given)?;
    let inputs = inputs(&given)?;
    Ok(Two::read(inputs).map_or_else(|why| fail(&why), |two| {
        let found = told::line_of(&two.texts[0], &two.texts[1], loader);
        found.map_or_else(|refusal| two.refused(refusal), |line| show(&[line, b"\n"].concat()))
    }))
}

/// The loader number that the first operand is. No sheet has 0, which stands for all numbers that are too large for one.
fn loader(given: &Given) -> Result<u16, WrongUse> {
    let word = given.operands[0].to_string_lossy();
    if word.is_empty() || !word.bytes().all(|byte| byte.is_ascii_digit()) {
        return Err(WrongUse(format!("LOADER must be one or more digits, and not {word}")));
    }
    Ok(word.parse().ok().filter(|&number| number <= tugrokt::MAX_LOADER).unwrap_or(0))
}
