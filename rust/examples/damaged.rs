//! Writes a patch, damages it beyond half the code's distance and prints every message that still fits;
//! then a word of seven marks that has two readings. Prints what c/example.c prints.

use whitebeamish::{Refusal, Setting};

fn main() -> Result<(), Refusal> {
    damaged()?;
    println!();
    seven()
}

/// 32 marks that carry 8 symbols. Half the distance mends 12 wrong marks; here 15 are wrong, as many as multiplicity 2
/// allows.
fn damaged() -> Result<(), Refusal> {
    let setting = Setting::largest(929, 32, 8, 2)?;
    let message = [1, 740, 15, 928, 0, 303, 66, 5];
    let points: Vec<u16> = (0..32).collect();
    let patch = setting.encode(&points, &message)?;
    let mut word = patch.clone();
    for j in 0..15 {
        word[2 * j] = (word[2 * j] + 100 + 37 * j as u16) % 929;
    }
    println!("message:{}", shown(&message));
    println!("patch:  {}", shown(&patch));
    println!("word:   {}", shown(&word));
    println!("15 marks are wrong");
    print_readings(&setting, &points, &word)
}

/// Three of seven marks may be wrong, one more than half the distance mends, and two messages fit.
fn seven() -> Result<(), Refusal> {
    let word = [0, 0, 0, 0, 4, 5, 6];
    println!("word:{}", shown(&word));
    print_readings(&Setting::new(7, 7, 2, 1, 3)?, &[0, 1, 2, 3, 4, 5, 6], &word)
}

fn print_readings(setting: &Setting, points: &[u16], word: &[u16]) -> Result<(), Refusal> {
    let reading = setting.read(points, word)?;
    println!("readings: {}", reading.messages.len());
    for message in &reading.messages {
        let patch = setting.encode(points, message)?;
        let agreements = patch.iter().zip(word).filter(|(a, b)| a == b).count();
        println!("+{}  agrees in {agreements} of {} places", shown(message), word.len());
    }
    Ok(())
}

fn shown(numbers: &[u16]) -> String {
    numbers.iter().map(|number| format!(" {number}")).collect()
}
