//! Columns of text beside each other.

/// As many columns stand beside each other as have room in a line of that length.
const LINE: usize = 100;

/// The characters of a column's longest line.
fn width(lines: &[String]) -> usize {
    lines.iter().map(|line| line.chars().count()).max().unwrap_or(0)
}

/// How many columns from the first on have room beside labels of a width; one has, however wide it is.
fn fitting(label: usize, columns: &[Vec<String>]) -> usize {
    let mut used = label;
    let fits = |column: &&Vec<String>| {
        used += 2 + width(column);
        used <= LINE
    };
    columns.iter().take_while(fits).count().max(1)
}

/// A line of each column behind its label.
fn band(labels: &[String], columns: &[Vec<String>]) -> String {
    let mut out = String::new();
    for (i, label) in labels.iter().enumerate() {
        let mut line = format!("{label:0$}", width(labels));
        for column in columns {
            line += &format!("  {:1$}", column[i], width(column));
        }
        out += line.trim_end();
        out.push('\n');
    }
    out
}

/// Columns that have a line for each label, beside each other; those that have no room stand below, behind the labels again.
pub fn side_by_side(labels: &[String], mut columns: &[Vec<String>]) -> String {
    let mut bands = vec![];
    while !columns.is_empty() {
        let (beside, below) = columns.split_at(fitting(width(labels), columns));
        bands.push(band(labels, beside));
        columns = below;
    }
    bands.join("\n")
}

#[cfg(test)]
mod tests {
    use super::*;

    fn lines(lines: &[&str]) -> Vec<String> {
        lines.iter().map(|l| l.to_string()).collect()
    }

    #[test]
    fn columns_stand_behind_their_labels() {
        let shown = side_by_side(&lines(&["", "rows", "of"]), &[lines(&["A", "1,2", ""]), lines(&["B", "3", "44"])]);
        assert_eq!(shown, "      A    B\nrows  1,2  3\nof         44\n");
    }

    #[test]
    fn what_has_no_room_stands_below() {
        let wide = |n: usize| vec!["x".repeat(n)];
        // 4 + 2 + 40 + 2 + 52 are 100
        let labels = lines(&["rows"]);
        assert_eq!(side_by_side(&labels, &[wide(40), wide(52)]).lines().count(), 1);
        let shown = side_by_side(&labels, &[wide(40), wide(53), wide(300)]);
        let lengths: Vec<usize> = shown.lines().map(str::len).collect();
        assert_eq!(lengths, [46, 0, 59, 0, 306]);
    }
}
