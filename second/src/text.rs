//! The calls on text: whitespace-separated numbers in, lines of numbers out.

use std::fmt::Display;
use std::str::FromStr;

use crate::calls::{check_call, encode_call, find_call, list_call, read_call, setting_call};
use crate::calls::{difference_call, inverse_call, product_call, sum_call};
use crate::calls::{Lent, Outcome, Parameters};
use crate::readings::Way;

/// The fields of an input, taken from the front.
pub struct Fields<'a> {
    fields: std::vec::IntoIter<&'a str>,
}

impl<'a> Fields<'a> {
    pub fn new(fields: Vec<&'a str>) -> Fields<'a> {
        Fields { fields: fields.into_iter() }
    }

    pub fn of(text: &'a str) -> Fields<'a> {
        Fields::new(text.split_whitespace().collect())
    }

    pub fn field(&mut self) -> Result<&'a str, String> {
        self.fields.next().ok_or_else(|| "a number is missing".to_string())
    }

    pub fn number<T: FromStr>(&mut self) -> Result<T, String> {
        parsed(self.field()?)
    }

    fn parameters(&mut self) -> Result<Parameters, String> {
        let (p, n, k) = (self.number()?, self.number()?, self.number()?);
        Ok(Parameters { p, n, k, s: self.number()?, tau: self.number()? })
    }

    /// A run: its length and then its numbers, or "length=number" for one number repeated.
    pub fn run<T: FromStr + Clone>(&mut self) -> Result<Vec<T>, String> {
        let head = self.field()?;
        match head.split_once('=') {
            Some((length, number)) => Ok(vec![parsed(number)?; parsed(length)?]),
            None => (0..parsed::<usize>(head)?).map(|_| parsed(self.field()?)).collect(),
        }
    }

    pub fn end(&mut self) -> Result<(), String> {
        match self.fields.next() {
            None => Ok(()),
            Some(field) => Err(format!("not expected: {field}")),
        }
    }
}

fn parsed<T: FromStr>(field: &str) -> Result<T, String> {
    field.parse().map_err(|_| format!("not a number of its size: {field}"))
}

/// field sum|difference|product P A B, field inverse P A: refusal and symbol.
pub fn field(fields: &mut Fields) -> Result<String, String> {
    let name = fields.field()?;
    let (p, a) = (fields.number()?, fields.number()?);
    let answer = match name {
        "sum" => sum_call(p, a, fields.number()?),
        "difference" => difference_call(p, a, fields.number()?),
        "product" => product_call(p, a, fields.number()?),
        "inverse" => inverse_call(p, a),
        other => return Err(format!("no field call {other}")),
    };
    fields.end()?;
    Ok(format!("{} {}\n", answer.refusal, answer.symbol))
}

/// P N K S τ: refusal W ℓ C U R.
pub fn setting(fields: &mut Fields) -> Result<String, String> {
    let parameters = fields.parameters()?;
    fields.end()?;
    let d = setting_call(&parameters);
    Ok(format!("{} {} {} {} {} {}\n", d.refusal, d.w, d.l, d.c, d.u, d.r))
}

/// p n k, points, message, output: refusal; output.
pub fn encode(fields: &mut Fields) -> Result<String, String> {
    let (p, n, k) = (fields.number()?, fields.number()?, fields.number()?);
    let (points, message, output) = (fields.run()?, fields.run()?, fields.run()?);
    fields.end()?;
    let outcome = encode_call(p, n, k, &points, &message, &output);
    Ok(format!("{}\n{}", outcome.refusal, line(&outcome.output)))
}

/// p n k s τ, points, word, curve: refusal and 1 for yes, 0 for no.
pub fn check(fields: &mut Fields) -> Result<String, String> {
    let parameters = fields.parameters()?;
    let (points, word, curve) = (fields.run()?, fields.run()?, fields.run()?);
    fields.end()?;
    let outcome = check_call(&parameters, &points, &word, &curve);
    Ok(format!("{} {}\n", outcome.refusal, u8::from(outcome.yes)))
}

/// p n k s τ, points, word, curve buffer, work: refusal found tried; curve buffer; work.
pub fn find(fields: &mut Fields) -> Result<String, String> {
    let parameters = fields.parameters()?;
    let (points, word) = (fields.run()?, fields.run()?);
    let (curve, work) = (fields.run()?, fields.run()?);
    fields.end()?;
    let outcome = find_call(&parameters, &points, &word, Lent { output: &[], curve: &curve, work: &work });
    Ok(head(&outcome) + &line(&outcome.curve) + &line(&outcome.work))
}

/// p n k s τ, points, word, curve, output, work: refusal found tried; output; work.
pub fn list(fields: &mut Fields, way: Option<Way>) -> Result<String, String> {
    let parameters = fields.parameters()?;
    let (points, word, proposed) = (fields.run()?, fields.run()?, fields.run()?);
    let (output, work) = (fields.run()?, fields.run()?);
    fields.end()?;
    let lent = Lent { output: &output, curve: &[], work: &work };
    let outcome = list_call(&parameters, &points, &word, &proposed, lent, way);
    Ok(head(&outcome) + &line(&outcome.output) + &line(&outcome.work))
}

/// p n k s τ, points, word, output, curve buffer, work: refusal found tried; output; curve buffer; work.
pub fn read(fields: &mut Fields, way: Option<Way>) -> Result<String, String> {
    let parameters = fields.parameters()?;
    let (points, word) = (fields.run()?, fields.run()?);
    let (output, curve, work) = (fields.run()?, fields.run()?, fields.run()?);
    fields.end()?;
    let outcome = read_call(&parameters, &points, &word, Lent { output: &output, curve: &curve, work: &work }, way);
    Ok(head(&outcome) + &line(&outcome.output) + &line(&outcome.curve) + &line(&outcome.work))
}

fn head(outcome: &Outcome) -> String {
    format!("{} {} {}\n", outcome.refusal, outcome.found, outcome.tried)
}

/// A run as it is read: its length and then its numbers.
pub fn line<T: Display>(numbers: &[T]) -> String {
    let mut text = numbers.len().to_string();
    for number in numbers {
        text.push(' ');
        text += &number.to_string();
    }
    text + "\n"
}
