// The job of `compare --words` on lines of numbers, in plain Rust as one would write it: the baseline of the benchmark.
use std::io::{self, BufRead, BufWriter, Write};

fn test<'a>(words: &'a [u32], depth: u32) -> Result<&'a [u32], (&'static str, usize)> {
    let Some((code, rest)) = words.split_first() else {
        return Err(("ended inside a program", 0));
    };
    match code {
        0 | 1 => Ok(rest),
        2 => number(rest, 4),
        3..=5 if depth == 0 => Err(("too deep", words.len())),
        3 | 4 => test(test(rest, depth - 1)?, depth - 1),
        5 => test(rest, depth - 1),
        _ => Err(("no code", words.len())),
    }
}

fn number(words: &[u32], limit: u32) -> Result<&[u32], (&'static str, usize)> {
    match words.split_first() {
        None => Err(("ended inside a program", 0)),
        Some((n, _)) if *n >= limit => Err(("number out of range", words.len())),
        Some((_, rest)) => Ok(rest),
    }
}

fn program<'a>(words: &'a [u32], depth: u32, steps: &mut u32) -> Result<&'a [u32], (&'static str, usize)> {
    let Some((code, rest)) = words.split_first() else {
        return Err(("ended inside a program", 0));
    };
    match code {
        0 => test(rest, depth),
        1 if *steps == 0 => Err(("too many steps", words.len())),
        1 => {
            *steps -= 1;
            number(rest, 8)
        }
        2..=4 if depth == 0 => Err(("too deep", words.len())),
        2 | 3 => {
            let second = program(rest, depth - 1, steps)?;
            program(second, depth - 1, steps)
        }
        4 => program(rest, depth - 1, steps),
        _ => Err(("no code", words.len())),
    }
}

fn pair(words: &[u32]) -> Result<(), (&'static str, usize)> {
    let second = program(words, 64, &mut 12)?;
    let rest = program(second, 64, &mut 12)?;
    if rest.is_empty() { Ok(()) } else { Err(("words left over", rest.len())) }
}

fn answer(line: &str, words: &mut Vec<u32>) -> String {
    words.clear();
    for piece in line.split_ascii_whitespace() {
        match piece.parse() {
            Ok(word) => words.push(word),
            Err(_) => return "no programs: not a number".to_string(),
        }
    }
    if words.len() > 4096 {
        return "no programs: too long, at word 4096".to_string();
    }
    match pair(words) {
        Ok(()) => "two programs".to_string(),
        Err((reason, left)) => format!("no programs: {reason}, at word {}", words.len() - left),
    }
}

fn main() -> io::Result<()> {
    let mut out = BufWriter::new(io::stdout().lock());
    let mut words = Vec::new();
    for line in io::stdin().lock().lines() {
        writeln!(out, "{}", answer(&line?, &mut words))?;
    }
    out.flush()
}
