//! Document 01, as Nos. 1, 2, 3, 5, 7 and 10 of document 02 change it, and Nos. 6, 8, 9, 11, 12 and
//! 13 of document 02, once more in plain safe Rust, written from their sentences alone, No. 6
//! also from the listing of source document 001, section 5; and what the program `sheet` prints.
//!
//! Nothing here is proved and nothing is meant to be fast: each module follows
//! the documents' wording closely enough to be read beside it. The proved
//! library is compared with this crate by the program `differential`.

mod aiger;
mod bench;
mod broken;
mod builder;
mod formula;
mod graph;
mod lines;
mod netlist;
mod operand;
mod order;
mod packed;
mod page;
mod paths;
mod rate;
mod refusal;
mod sheet;
mod simulator;
#[cfg(test)]
mod testing;
mod texts;
mod trace;

pub use aiger::{read, write, write_packed};
pub use bench::{bench_add, bench_turn, Turn};
pub use broken::{broken_check, first_broken, Part, Trace};
pub use builder::{build, formula_of_gates, Outputs};
pub use formula::{parse as parse_formula, Formula, Operator, Parsed};
pub use graph::{Edge, Graph, Mode};
pub use netlist::{Gate, Header, Latch, Literal, Netlist, Reset, Variable};
pub use operand::{Atom, Operand, Run, Term};
pub use page::session_page;
pub use paths::{judged_cycles, rejected_cycles, Judged};
pub use rate::{per_million, Rate};
pub use refusal::{Cause, Refusal};
pub use sheet::sheet;
pub use simulator::{run, start, step, Tally, Verdict, Words};
pub use texts::{buffer_count_after, buffer_graph, buffer_rejects, dearest_graph};
