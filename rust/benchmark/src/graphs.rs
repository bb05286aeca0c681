//! The two graphs that are measured.

use std::fmt::Write as _;

/// The stroke buffer's graph, as the library writes it: how many strokes the buffer holds, and when
/// its flags say empty and full.
pub fn stroke_buffer(places: usize) -> String {
    let mut text = vec![0; 4_287];
    let length = ludopoplar::buffer_graph(places as u64, &mut text).expect("1 to 40 strokes");
    text.truncate(length);
    String::from_utf8(text).expect("a text of ASCII bytes")
}

/// A buffer that keeps what is put into it: the stroke buffer's counts, and for
/// any six bits, which are the constants, the place where they wait. When they
/// are taken out, the console must show just them.
pub fn stroke_content(places: usize) -> String {
    let mut text = String::new();
    for signal in ["reset", "enq", "deq", "empty", "full"] {
        record(&mut text, &["S", signal]);
    }
    for side in ["in", "out"] {
        (0..6).for_each(|bit| record(&mut text, &["S", &format!("{side}{bit}")]));
    }
    (0..6).for_each(|bit| record(&mut text, &["K", &format!("c{bit}")]));
    record(&mut text, &["V", "s"]);
    (0..=places).for_each(|count| record(&mut text, &["V", &counting(count)]));
    (1..=places).for_each(|place| record(&mut text, &["V", &waiting(place)]));
    record(&mut text, &["V", "done"]);
    record(&mut text, &["E", "s", &counting(0), "t", "reset", "1"]);
    for count in 0..=places {
        counting_edges(&mut text, count, places);
    }
    for count in 0..places {
        let put = match count {
            0 => format!("enq&{}", alike("in")),
            _ => format!("enq&!deq&{}", alike("in")),
        };
        let edge = [&counting(count), &waiting(count + 1), "-", &put, "1"];
        record(&mut text, &[&["E"], &edge[..]].concat());
    }
    for place in 1..=places {
        let here = waiting(place);
        record(&mut text, &["E", &here, &here, "-", "!deq", "1"]);
        match place {
            1 => record(&mut text, &["E", &here, "done", "t", "deq", &alike("out")]),
            _ => record(
                &mut text,
                &["E", &here, &waiting(place - 1), "-", "deq", "1"],
            ),
        }
    }
    text
}

/// The edges of one count, as source 001 lists them.
fn counting_edges(text: &mut String, count: usize, places: usize) {
    let here = counting(count);
    let mut edge = |to: usize, antecedent: &str, consequent: &str| {
        record(
            text,
            &["E", &here, &counting(to), "t", antecedent, consequent],
        );
    };
    if count == 0 {
        edge(1, "enq", "empty&!full");
        edge(0, "!enq", "empty&!full");
    } else if count == places {
        edge(places - 1, "deq", "!empty&full");
        edge(places, "!deq", "!empty&full");
    } else {
        edge(count + 1, "enq&!deq", "!empty&!full");
        edge(count - 1, "!enq&deq", "!empty&!full");
        edge(count, "enq=deq", "!empty&!full");
    }
}

fn counting(count: usize) -> String {
    format!("n{count}")
}

fn waiting(place: usize) -> String {
    format!("p{place}")
}

/// All six bits of a side are as the constants.
fn alike(side: &str) -> String {
    let bits: Vec<String> = (0..6).map(|bit| format!("({side}{bit}=c{bit})")).collect();
    bits.join("&")
}

fn record(text: &mut String, fields: &[&str]) {
    writeln!(text, "{}", fields.join("\t")).expect("a String takes all text");
}
