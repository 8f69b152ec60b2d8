//! Tables that stand in a page: what is between a line `<!-- bench: NAME -->` and the next line `<!-- bench -->` is written
//! anew, each line indented as output is.

use std::fs;

const END: &str = "<!-- bench -->";

/// The page with another table in a block; none where it has no such block.
fn filled(page: &str, block: &str, table: &str) -> Option<String> {
    let begin = format!("<!-- bench: {block} -->\n");
    let start = page.find(&begin)? + begin.len();
    let end = start + page[start..].find(END)?;
    let lines: String = table.lines().map(indented).collect();
    Some(format!("{}\n{lines}\n{}", &page[..start], &page[end..]))
}

fn indented(line: &str) -> String {
    let line = line.trim_end();
    if line.is_empty() {
        return "\n".into();
    }
    format!("    {line}\n")
}

/// Writes a table into a block of a file.
pub fn write(file: &str, block: &str, table: &str) -> Result<(), String> {
    let page = fs::read_to_string(file).map_err(|why| format!("{file}: {why}"))?;
    let page = filled(&page, block, table).ok_or(format!("{file} has no block {block}"))?;
    fs::write(file, page).map_err(|why| format!("{file}: {why}"))
}

#[cfg(test)]
mod tests {
    use super::filled;

    #[test]
    fn a_block_is_written_anew() {
        let page = "a\n<!-- bench: one -->\n\n    old\n\n<!-- bench -->\nb\n<!-- bench: two -->\n<!-- bench -->\n";
        let one =
            "a\n<!-- bench: one -->\n\n    x  1\n\n    y\n\n<!-- bench -->\nb\n<!-- bench: two -->\n<!-- bench -->\n";
        assert_eq!(filled(page, "one", "x  1 \n\ny\n").as_deref(), Some(one));
        assert_eq!(filled(one, "one", "x  1\n\ny").as_deref(), Some(one));
        assert_eq!(filled(page, "three", "x"), None);
    }
}
