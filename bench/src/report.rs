//! The table that is printed, and the plot.

use std::fmt::Write;

use crate::timing::{Compared, ROUNDS, Spread};

/// A line of the table: what was measured, on what, and the times.
pub struct Row {
    pub name: String,
    pub on: String,
    pub compared: Compared,
}

/// A time with three digits that count.
pub fn time(nanoseconds: f64) -> String {
    let (scaled, unit) = match nanoseconds {
        small if small < 1e3 => (small, "ns"),
        middling if middling < 1e6 => (middling / 1e3, "µs"),
        large => (large / 1e6, "ms"),
    };
    let digits = if scaled < 10.0 { 2 } else { usize::from(scaled < 100.0) };
    format!("{scaled:.digits$} {unit}")
}

fn times(spread: Spread) -> String {
    format!("{} ({} to {})", time(spread.median), time(spread.low), time(spread.high))
}

pub fn table(rows: &[Row]) -> String {
    let mut text = String::from("| call | on | proved | plain | proved / plain |\n|---|---|---|---|---|\n");
    for Row { name, on, compared } in rows {
        let Compared { proved, plain, ratio } = compared;
        let ratio = format!("{:.2} ({:.2} to {:.2})", ratio.median, ratio.low, ratio.high);
        writeln!(text, "| {name} | {on} | {} | {} | {ratio} |", times(*proved), times(*plain)).expect("a string grows");
    }
    text
}

/// The page that docs/ shows.
pub fn page(rows: &[Row], machine: &str) -> String {
    format!(
        "# Benchmarks\n\n\
         Written by `bench/run`, on {machine}.\n\n\
         Each proved call against an ordinary Rust version with the same checks (`bench/src/plain.rs`, held to the same model), \
         both optimised by LLVM at level 3, in one process and in turns. A time is the median of {ROUNDS} rounds, with the \
         quartiles; the ratio is the median of the rounds' ratios, with theirs. HOUSE images are mapped without \
         reserving memory. Images are of version 3; a move makes version 2.\n\n\
         ![The ratios](bench.svg)\n\n\
         {}\n\
         - Loads and stores: at 256 offsets of a book of eight blocks (16 offsets for 1 MiB), in an image with every block taken. \
         Every other one crosses from one block to the next.\n\
         - Open, grow, release, recover: every block of the image is taken, in any order, with half as many regions given out as there are \
         blocks. Grow is by one page for which the book needs another block. The book that is released has six.\n\
         - Lay and move: in the same image. The memory that is moved takes up all of it but the last block, to which its first goes.\n\
         - The copying leaf is what loads and stores copy with, against `copy_from_slice`; the all-zero leaf is recovery's look at \
         the reserve, against a fold of the same bytes.\n\n\
         ## As an image grows\n\n\
         Open and recover look at every entry of both tables, whoever holds the blocks: a cost that is always there, and one by the block. \
         The proved recovery's line bends upwards: it looks for a pair named twice with little memory, in one pass over the blocks for \
         so many regions in use, so that a fuller image has more passes, and each block costs more. Plain Rust takes memory for every \
         region and makes one pass.\n\n\
         ![The times](growth.svg)\n",
        table(rows)
    )
}

// The plot: a line of text and a bar for each row, on a scale of logarithms.
const LEFT: f64 = 330.0;
const WIDE: f64 = 380.0;
const TOP: f64 = 64.0;
const STEP: f64 = 22.0;
const MARKS: [f64; 5] = [0.5, 1.0, 2.0, 4.0, 8.0];

fn across(ratio: f64) -> f64 {
    let (low, high) = (MARKS[0].ln(), MARKS[MARKS.len() - 1].ln());
    LEFT + WIDE * ((ratio.ln() - low) / (high - low)).clamp(0.0, 1.0)
}

/// The ratios as a picture: a dot for the median, a line from quartile to quartile.
pub fn plot(rows: &[Row]) -> String {
    let bottom = TOP + STEP * rows.len() as f64;
    let mut lines = vec![
        format!(
            r##"<svg xmlns="http://www.w3.org/2000/svg" width="760" height="{0}" viewBox="0 0 760 {0}" font-family="sans-serif" font-size="13">"##,
            bottom + 16.0
        ),
        r##"<rect width="100%" height="100%" fill="#ffffff"/>"##.to_string(),
        r##"<text x="16" y="24" font-size="15">Time of a proved call over plain Rust with the same checks</text>"##
            .to_string(),
    ];
    for mark in MARKS {
        let (x, shade) = (across(mark), if mark == 1.0 { "#444444" } else { "#cccccc" });
        lines.push(format!(
            r##"<line x1="{x:.1}" y1="{:.1}" x2="{x:.1}" y2="{bottom:.1}" stroke="{shade}"/>"##,
            TOP - 8.0
        ));
        lines.push(format!(
            r##"<text x="{x:.1}" y="{:.1}" text-anchor="middle" fill="#444444">{mark}</text>"##,
            TOP - 14.0
        ));
    }
    for (row, turn) in rows.iter().zip(0..) {
        let y = TOP + STEP * (f64::from(turn) + 0.5);
        let Spread { low, median, high } = row.compared.ratio;
        lines.push(format!(r##"<text x="16" y="{:.1}">{} {}</text>"##, y + 4.5, row.name, row.on));
        lines.push(format!(
            r##"<line x1="{:.1}" y1="{y:.1}" x2="{:.1}" y2="{y:.1}" stroke="#3366aa" stroke-width="3"/>"##,
            across(low),
            across(high)
        ));
        lines.push(format!(r##"<circle cx="{:.1}" cy="{y:.1}" r="4.5" fill="#3366aa"/>"##, across(median)));
        lines.push(format!(r##"<text x="716" y="{:.1}">{median:.2}</text>"##, y + 4.5));
    }
    lines.push("</svg>\n".to_string());
    lines.join("\n")
}
