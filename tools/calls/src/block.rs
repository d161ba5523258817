//! The blocks of calls.txt: a line, and what is indented under it.

pub struct Block {
    /// The number of its first line.
    pub line: usize,
    pub word: String,
    pub rest: String,
    /// What stands under it, a line that goes on joined to the one before.
    pub lines: Vec<String>,
}

/// The blocks of a text, or the line that belongs to none.
pub fn blocks(text: &str) -> Result<Vec<Block>, String> {
    let mut blocks: Vec<Block> = Vec::new();
    for (number, line) in text.lines().enumerate().map(|(index, line)| (index + 1, line.trim_end())) {
        let said = line.trim_start();
        let misplaced = || format!("calls.txt, line {number}: this belongs to nothing above it");
        match line.len() - said.len() {
            _ if said.is_empty() || line.starts_with('#') => {}
            0 => {
                let (word, rest) = said.split_once(' ').unwrap_or((said, ""));
                blocks.push(Block { line: number, word: word.into(), rest: rest.into(), lines: Vec::new() });
            }
            2 => blocks.last_mut().ok_or_else(misplaced)?.lines.push(said.into()),
            _ => {
                let line = blocks.last_mut().and_then(|block| block.lines.last_mut()).ok_or_else(misplaced)?;
                line.push(' ');
                line.push_str(said);
            }
        }
    }
    Ok(blocks)
}
