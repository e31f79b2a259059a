//! A whole script: line by line from an input to an output.

use crate::{LONGEST_LINE, Player, answer_line, parse};
use calls::Engine;
use std::io::{self, BufRead, BufReader, Read, Write};

const BAD_LINE: &[u8] = b"bad line";

/// Play a script. Each answer is written out before more input is waited for.
pub fn play<E: Engine>(engine: E, input: impl Read, mut output: impl Write) -> io::Result<()> {
    let mut input = BufReader::with_capacity(1 << 16, input);
    let mut player = Player::new(engine);
    let mut answers = Vec::new();
    while let Some(line) = next_line(&mut input)? {
        match line {
            Line::TooLong => answers.extend_from_slice(BAD_LINE),
            Line::Whole(line) => answer(&mut player, &line, &mut answers),
        }
        answers.push(b'\n');
        if input.buffer().is_empty() || answers.len() > 1 << 16 {
            output.write_all(&answers)?;
            output.flush()?;
            answers.clear();
        }
    }
    output.write_all(&answers)?;
    output.flush()
}

/// The answer to one line, without its line feed.
fn answer<E: Engine>(player: &mut Player<E>, line: &[u8], answers: &mut Vec<u8>) {
    if line.is_empty() || line[0] == b'#' {
        answers.extend_from_slice(line);
        return;
    }
    let Some(call) = parse(line) else {
        answers.extend_from_slice(BAD_LINE);
        return;
    };
    let played = player.play(&call);
    answers.extend_from_slice(answer_line(&played.answer).as_bytes());
    if played.touched {
        answers.extend_from_slice(b" TOUCHED");
    }
}

enum Line {
    Whole(Vec<u8>),
    TooLong,
}

/// The next line without its line feed. A line that is too long is read to its end but not kept.
fn next_line(input: &mut impl BufRead) -> io::Result<Option<Line>> {
    let mut line = Vec::new();
    let limit = LONGEST_LINE as u64 + 1;
    if input.by_ref().take(limit).read_until(b'\n', &mut line)? == 0 {
        return Ok(None);
    }
    if line.last() == Some(&b'\n') {
        line.pop();
        return Ok(Some(Line::Whole(line)));
    }
    if line.len() <= LONGEST_LINE {
        return Ok(Some(Line::Whole(line)));
    }
    input.skip_until(b'\n')?;
    Ok(Some(Line::TooLong))
}
