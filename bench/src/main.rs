//! Prints the table, and writes the page and the plot that docs/ shows.

use std::cell::RefCell;
use std::env::consts::ARCH;
use std::fs;
use std::path::Path;

use jaaturbal_bench::bytes::{self, Lie, Sheets};
use jaaturbal_bench::growth::{self, Growth};
use jaaturbal_bench::manager::{GROW, LAY, LOAD, MOVE, OPEN, RECOVER, RECOVER_WIDEST, RELEASE, STORE};
use jaaturbal_bench::report::{Row, page, plot, table};
use jaaturbal_bench::tables::{self, Ledger};
use jaaturbal_bench::{leaf, timing::Compared};
use jaaturbal_model::paper::{HOUSE, WIDEST};

/// Images of HOUSE by the blocks that they have, all of them taken.
const PARTS: [(u64, &str); 4] =
    [(512, "1/64 of HOUSE"), (2_048, "1/16 of HOUSE"), (8_192, "a quarter of HOUSE"), (32_768, "a full HOUSE image")];
const SIZES: [(usize, &str); 3] = [(16, "16 bytes"), (4_096, "4 KiB"), (1 << 20, "1 MiB")];

fn main() {
    let mut rows = Vec::new();
    let mut measured = |name: String, on: String, compared: Compared| {
        eprintln!("{name}, {on}");
        rows.push(Row { name, on, compared });
    };
    measured("copying leaf".into(), "1 MiB".into(), leaf::copies(1 << 20));
    let unused = HOUSE.unused().len();
    measured("all-zero leaf".into(), "the unused reserve of HOUSE".into(), leaf::looks(unused));

    let sheets = RefCell::new(Sheets::drawn());
    for call in [LOAD, STORE] {
        for lie in [Lie::Adjacent, Lie::Scattered] {
            for (bytes, size) in SIZES {
                let compared = bytes::measured(&sheets, call, lie, bytes);
                measured(call.name.into(), format!("{size}, {} blocks", lie.name()), compared);
            }
        }
    }
    drop(sheets);
    let mut growths = [OPEN, RECOVER].map(|call| Growth { name: call.name, at: Vec::new() });
    for (blocks, part) in PARTS {
        let ledger = RefCell::new(Ledger::drawn(HOUSE, blocks));
        for call in [LAY, MOVE, OPEN, GROW, RELEASE, RECOVER] {
            let compared = tables::measured(&ledger, call);
            measured(call.name.into(), part.into(), compared);
            if let Some(growth) = growths.iter_mut().find(|growth| growth.name == call.name) {
                growth.at.push((blocks, compared));
            }
        }
    }

    let ledger = RefCell::new(Ledger::drawn(WIDEST, WIDEST.blocks));
    let on = "a full image of 65,535 blocks".into();
    measured(RECOVER_WIDEST.name.into(), on, tables::measured(&ledger, RECOVER_WIDEST));

    print!("{}", table(&rows));
    let docs = Path::new(env!("CARGO_MANIFEST_DIR")).join("../docs");
    let page = page(&rows, &machine());
    for (name, text) in [("bench.svg", plot(&rows)), ("growth.svg", growth::plot(&growths)), ("BENCHMARKS.md", page)] {
        let file = docs.join(name);
        fs::write(&file, text).unwrap_or_else(|error| panic!("{}: {error}", file.display()));
    }
}

/// The processor's name, or its kind where the system does not tell the name.
fn machine() -> String {
    let told = fs::read_to_string("/proc/cpuinfo").unwrap_or_default();
    let name = told.lines().find_map(|line| line.strip_prefix("model name")?.split(": ").nth(1));
    let cores = std::thread::available_parallelism().map_or(1, |cores| cores.get());
    format!("{} with {cores} cores", name.map_or_else(|| format!("an {ARCH} machine"), str::to_string))
}
