//! The fenced blocks of a page.

use super::read;

pub struct Block {
    /// What stands behind the three backticks that open it.
    pub info: String,
    /// Its lines, each with its end.
    pub text: String,
}

/// The blocks of a page of the repository, in order.
pub fn blocks(page: &str) -> Vec<Block> {
    let mut blocks: Vec<Block> = Vec::new();
    let mut inside = false;
    for line in read(page).lines() {
        if let Some(info) = line.strip_prefix("```") {
            inside = !inside;
            if inside {
                let info = info.to_string();
                blocks.push(Block {
                    info,
                    text: String::new(),
                });
            }
        } else if inside {
            let block = blocks.last_mut().expect("a block is open");
            block.text.push_str(line);
            block.text.push('\n');
        }
    }
    assert!(!inside, "{page}: a block without an end");
    blocks
}

/// A block of a page and the block of text behind it, which is what it prints.
pub struct Example {
    pub info: String,
    pub text: String,
    pub prints: String,
}

/// The blocks whose info is wanted, each with what it prints: the next block, where that is `text`, else nothing.
pub fn examples(page: &str, wanted: impl Fn(&str) -> bool) -> Vec<Example> {
    let mut blocks = blocks(page).into_iter().peekable();
    let mut examples = Vec::new();
    while let Some(block) = blocks.next() {
        if !wanted(&block.info) {
            continue;
        }
        let printed = blocks.next_if(|next| next.info == "text");
        examples.push(Example {
            info: block.info,
            text: block.text,
            prints: printed.map_or(String::new(), |block| block.text),
        });
    }
    examples
}

/// The one line of a page that begins with four blanks and is wanted, without the blanks.
pub fn indented(page: &str, wanted: impl Fn(&str) -> bool) -> String {
    let text = read(page);
    let mut lines = text
        .lines()
        .filter_map(|line| line.strip_prefix("    "))
        .filter(|line| wanted(line));
    match (lines.next(), lines.next()) {
        (Some(line), None) => line.to_string(),
        (None, _) => panic!("{page}: no such command"),
        (Some(_), Some(other)) => panic!("{page}: a second command {other}"),
    }
}
