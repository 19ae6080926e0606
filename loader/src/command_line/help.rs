//! What `--help` and `help COMMAND` print.

pub const VERSION: &str = concat!("sort_placement ", env!("CARGO_PKG_VERSION"), "\n");

/// A command, for the list and for its own page.
struct Topic {
    name: &'static str,
    words: &'static str,
    short: &'static str,
    long: &'static str,
    example: &'static str,
}

const KEYS: &str =
    "A listing has a line for each node: its number, its depth, its kind, how many streams it gives, its fetch and its keys.
A hyphen stands for none. Keys stand in their order, with commas between. A key is a column and two letters:

  0al   column 0, ascending, nulls last
  0af   ascending, nulls first
  0dl   descending, nulls last
  0df   descending, nulls first";

const SETTINGS: &str = "The settings, each off unless it is given:

  spr     a repartition may keep its input's order where that removes a sort (sort-preserving repartition)
  spm     a coalesce may become a merge where that removes a sort (sort-preserving merge)
  prefer  both: an order that is there is preferred to a new sort

Off, the walk does either only over an unbounded input. A file named spr, spm or prefer is given as ./spr.";

const ORDERS: &str = "It looks at orders alone: that each node's children come in the order that it wants. Whether a node has the
distribution that it wants (one stream, or streams by key) is not looked at.";

const STEPPED: &str = "PLAN ROWS [--choices HEX]";

const ROWS: &str =
    "PLAN is a plan file, ROWS a text with the rows of its sources (docs/TEXT.md); one of them can be '-', standard input.
HEX has two digits for each byte of the choices. Each step takes a byte where there is a choice, of operators that can
move, of streams; a list that ends starts over, and without one each choice is the first. A plan with a join or an
aggregate is not stepped.";

const TOPICS: [Topic; 14] = [
    Topic {
        name: "check",
        words: "",
        short: "whether the plan passes the order check (status 1: it does not)",
        long: "Where it does not pass, each place is named: the node, its child, the order wanted, the order known, how many keys are met.\n\n{orders}",
        example: "sort_placement make examples/extended_echo.txt | sort_placement check",
    },
    Topic {
        name: "copy",
        words: "",
        short: "the plan read and written: the same bytes",
        long: "The plan file is read and written by the library.",
        example: "sort_placement make examples/extended_echo.txt | sort_placement copy | sort_placement list",
    },
    Topic {
        name: "ensure",
        words: "",
        short: "the plan ensured: sorts put where an order is wanted, needless ones removed",
        long: "The plan that it writes passes the order check.",
        example: "sort_placement make examples/extended_echo.txt | sort_placement ensure | sort_placement check",
    },
    Topic {
        name: "parallelize",
        words: "",
        short: "its sorts parallelized: streams sorted, then merged",
        long: "A sort over a coalesce becomes a merge over sorts of each stream.",
        example: "sort_placement make examples/extended_echo.txt | sort_placement parallelize | sort_placement list",
    },
    Topic {
        name: "preserve",
        words: "[spr] [spm] [prefer]",
        short: "order-preserving variants put in, with these settings on",
        long: "{settings}",
        example: "sort_placement make examples/grouped_stockpiles.txt | sort_placement preserve spr spm | sort_placement list",
    },
    Topic {
        name: "push",
        words: "",
        short: "its sorts pushed down",
        long: "Sorts go down as far as they can.",
        example: "sort_placement make examples/extended_echo.txt | sort_placement push | sort_placement list",
    },
    Topic {
        name: "partial",
        words: "NODE",
        short: "the sort of that number made a partial sort",
        long: "NODE is a number of the listing. A node that is no sort stays as it is, and so does a sort whose child is bounded, or meets none of its keys or all of them.",
        example: "sort_placement make examples/extended_echo.txt | sort_placement partial 1 | sort_placement list",
    },
    Topic {
        name: "list",
        words: "",
        short: "the plan's listing",
        long: "{keys}",
        example: "sort_placement make examples/extended_echo.txt | sort_placement list",
    },
    Topic {
        name: "draw",
        words: "",
        short: "a Graphviz graph of it; red edges want an order that is not met",
        long: "Rows flow upwards. A node has its line of the text form, its streams and its known order; an edge the order that is wanted.",
        example: "sort_placement make examples/extended_echo.txt | sort_placement draw -",
    },
    Topic {
        name: "make",
        words: "",
        short: "a plan file of a text",
        long: "FILE is a text of at most 1 MiB; docs/TEXT.md has its form. A wrong word is told with its line and column.",
        example: "sort_placement make examples/extended_echo.txt -o /dev/null",
    },
    Topic {
        name: "show",
        words: "",
        short: "the text of a plan file",
        long: "`make` of it gives the same file.",
        example: "sort_placement make examples/extended_echo.txt | sort_placement show",
    },
    Topic {
        name: "try",
        words: "CALL ..",
        short: "CALL on the plan of a text, with the listings before and after",
        long: "CALL is check, copy, ensure, parallelize, preserve, push or partial, with its own words; FILE is a text (docs/TEXT.md).
Nodes that are gone or new, that moved or changed, are marked, and a fetch that no node has any more is told as lost.
Where nothing changed it says 'unchanged'.

{keys}",
        example: "sort_placement try ensure examples/extended_echo.txt",
    },
    Topic {
        name: "dry-run",
        words: STEPPED,
        short: "rows stepped through the plan: those that it delivers, by stream",
        long: "{rows}

Each stream of the root is printed, with a line for each row, in the form that ROWS has. From a plan that passes the
order check no row comes out of order.",
        example: "sort_placement make examples/two_drones.txt | sort_placement dry-run - examples/dry_run_rows.txt --choices 0102",
    },
    Topic {
        name: "settings",
        words: STEPPED,
        short: "preserve with each of its eight settings, and dry runs of its answers side by side",
        long: "{rows}

The plan as it is given and the answers of the order-preserving walk have a column each, named by a letter; settings with
the same answer have one together. 'none' is the walk without settings; the others stand as in `preserve`. A refused
setting has no column, and its refusal is told. A column has the plan's nodes, whether it passes the order check, its
streams, how many rows a dry run delivers and how many are out of order; then the rows of each stream that has some.

A row is out of order, and marked with *, if it sorts before an earlier one of its stream. The order is that of the plan
as it is given: the keys of its root, if that is a sort, a partial sort, a merge or an output requirement that has some;
else the order that its root is known to have. Nothing asks for an order that is only known, so the walk may lose it: an
answer that passes the check can then have such rows.",
        example: "sort_placement make examples/two_drones.txt | sort_placement settings - examples/dry_run_rows.txt --choices 010100",
    },
];

/// The page of a command; that of `help` is the list.
pub fn of(name: &str) -> Option<String> {
    if name == "help" {
        return Some(all());
    }
    let t = TOPICS.iter().find(|t| t.name == name)?;
    let space = if t.words.is_empty() { "" } else { " " };
    // those that step name their files themselves
    let file = if t.words == STEPPED { "" } else { " [FILE]" };
    let filled = [("{keys}", KEYS), ("{settings}", SETTINGS), ("{orders}", ORDERS), ("{rows}", ROWS)];
    let long = filled.iter().fold(t.long.to_string(), |long, (place, text)| long.replace(place, text));
    Some(format!(
        "sort_placement {}{space}{}{file} [-o OUT]: {}\n\n{long}\n\nExample:\n\n  {}\n",
        t.name, t.words, t.short, t.example
    ))
}

/// The list of commands.
pub fn all() -> String {
    let mut out = String::from(
        "sort_placement COMMAND [FILE] [-o OUT]

FILE is a plan file, for make and try a text; '-' or nothing for standard input. OUT is '-' or nothing for standard output.
PLAN is a plan file, ROWS a text with the rows of its sources; one of them can be '-'.

",
    );
    for t in &TOPICS {
        let head = format!("{} {}", t.name, t.words);
        let head = head.trim_end();
        // a long one has its line to itself
        out += &if head.len() > 13 { format!("  {head}\n{:17}{}\n", "", t.short) } else { format!("  {head:13}  {}\n", t.short) };
    }
    out += "  help [COMMAND]
                 this list, or a command's own page with an example

Options: -o OUT, --choices HEX, -h or --help, -V or --version; behind -- nothing is an option.

";
    out += ORDERS.replace("It looks", "The order check looks").as_str();
    out += "

Status: 0 done; 1 the plan does not pass the check; 2 bad usage, or a text that is not of the form; 3 a refusal, told with its number
and its place, and nothing is written; 4 a file can't be read or written.
";
    out
}
