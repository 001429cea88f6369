//! What the program `pads` prints. Every line, `refused n` too, ends in one
//! line feed.

use crate::day_file::read_day_file;

fn push_figure(text: &mut String, figure: u8) {
    if figure == 255 {
        text.push('-');
        return;
    }
    for power in [100, 10, 1] {
        if figure >= power || power == 1 {
            text.push(char::from(b'0' + figure / power % 10));
        }
    }
}

/// One line for each whole entry of the journal.
pub fn journal_text(journal: &[u8]) -> String {
    let mut text = String::with_capacity(journal.len() * 3);
    for entry in journal.chunks_exact(4) {
        for (place, &figure) in entry.iter().enumerate() {
            if place > 0 {
                text.push(' ');
            }
            push_figure(&mut text, figure);
        }
        text.push('\n');
    }
    text
}

/// The program's output for a whole file.
pub fn file_text(file: &[u8]) -> String {
    match read_day_file(file) {
        Err(number) => format!("refused {number}\n"),
        Ok((mut state, events)) => {
            let mut journal = vec![0; events.len() * 2];
            state.run(events, &mut journal);
            journal_text(&journal)
        }
    }
}
