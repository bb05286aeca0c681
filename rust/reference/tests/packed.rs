//! No. 1 of document 02, "the packed AIGER form": the worked cases as they were decided, a file
//! written as its bytes; then what the cases leave to be shown: each form reads as the same
//! netlist, limits of the lines, lengths of buffers, the longest files.

use reference::{build, read, write, write_packed, Outputs, Refusal};

/// As many as the longest netlist has.
const NUMBERS: usize = 8_195;
const G: &[u8] = b"S\tp\nS\tq\nV\ta\nV\tb\nE\ta\tb\tt\tp\tq\n";
/// The lines of a file with one gate, whose literal is 4.
const H: &[u8] = b"aig 2 1 0 1 1\n4\n";
/// What stands before the gate's operands in the numbers of such a file.
const H_NUMBERS: [u16; 6] = [2, 1, 0, 1, 1, 4];

fn numbered(refusal: Refusal) -> (u8, u32) {
    (refusal.number, refusal.line)
}

fn built(graph: &[u8], outputs: Outputs) -> Vec<u16> {
    let mut net = vec![0; NUMBERS];
    build(graph, outputs, &mut net).unwrap();
    net
}

fn packed(net: &[u16]) -> Vec<u8> {
    let mut bytes = vec![0; 65_536];
    let length = write_packed(net, &mut bytes).unwrap();
    bytes.truncate(length);
    bytes
}

fn text(net: &[u16]) -> Vec<u8> {
    let mut bytes = vec![0; 65_536];
    let length = write(net, &mut bytes).unwrap();
    bytes.truncate(length);
    bytes
}

fn numbers(file: &[u8]) -> Result<Vec<u16>, (u8, u32)> {
    let mut net = vec![0; NUMBERS];
    let length = read(file, &mut net).map_err(numbered)?;
    net.truncate(length);
    Ok(net)
}

fn with_gate(bytes: &[u8]) -> Result<Vec<u16>, (u8, u32)> {
    numbers(&[H, bytes].concat())
}

fn gate(r0: u16, r1: u16) -> Result<Vec<u16>, (u8, u32)> {
    Ok([&H_NUMBERS[..], &[r0, r1]].concat())
}

#[test]
fn g_written() {
    let runs = b"\x04\x05\x04\x07\x0c\x02\x02\x0a\x04\x09\x12\x04\x01\x02";
    let net = built(G, Outputs::Accept);
    let due = [&b"aig 12 3 2 1 7\n18\n25\n24\n"[..], runs].concat();
    assert_eq!(packed(&net), due);
    assert_eq!((due.len(), text(&net).len()), (38, 89));

    let net = built(G, Outputs::AcceptAndChecked);
    let lines = &b"aig 13 3 2 2 8\n18\n25\n24\n27\n"[..];
    let due = [lines, runs, b"\x02\x05"].concat();
    assert_eq!(packed(&net), due);
    assert_eq!(due.len(), 43);
}

/// The runs of 0, 127, 128 and 8,190 as differences; 16,384 is none, so it is read alone.
#[test]
fn runs_in_files() {
    for (r0, r1, runs) in [
        (8_063, 8_063, &b"\x7f\x00"[..]),
        (8_062, 7_934, b"\x80\x01\x80\x01"),
        (8_189, 62, b"\x01\xbf\x3f"),
        (0, 0, b"\xfe\x3f\x00"),
    ] {
        let mut net = vec![4_095, 1, 0, 1, 4_094, 0];
        net.resize(6 + 2 * 4_093, 0);
        net.extend([r0, r1]);
        let file = packed(&net);
        assert!(file.ends_with(runs), "{r0} {r1}");
        assert_eq!(numbers(&file), Ok(net));
    }
    assert_eq!(with_gate(b"\x80\x80\x01\x00"), Err((14, 0)));
}

#[test]
fn lines() {
    assert_eq!(numbers(b"aig 1 1 0 1 0\n2\n"), Ok(vec![1, 1, 0, 1, 0, 2]));
    let of_two = Ok(vec![1, 1, 0, 2, 0, 2, 3]);
    assert_eq!(numbers(b"aig 1 1 0 2 0\n2\n3\n"), of_two);
    let latch = |reset| Ok(vec![2, 1, 1, 1, 0, 2, reset, 5]);
    assert_eq!(numbers(b"aig 2 1 1 1 0\n2\n5\n"), latch(0));
    assert_eq!(numbers(b"aig 2 1 1 1 0\n2 0\n5\n"), latch(0));
    assert_eq!(numbers(b"aig 2 1 1 1 0\n2 1\n5\n"), latch(1));
    assert_eq!(numbers(b"aig 2 1 1 1 0\n2 4\n5\n"), latch(4));
    for (file, due) in [
        (&b"aig 1 1 0 1 0\n2\nx"[..], (18, 0)),
        (b"aig 1 1 0 1 0\n2\n2\n", (18, 0)),
        (b"aig 1 1 0 1 0\n2\n\n", (18, 0)),
        (b"aig 1 1 0 1 0\n2", (13, 2)),
        (b"aig 1 1 0 1 0\n", (13, 2)),
        (b"aig 1 1 0 1 0\n4\n", (14, 2)),
        (b"aig 1 1 0 2 0\n2\n", (13, 3)),
        (b"aig 1 1 0 2 0\n2\n4\n", (14, 3)),
        (b"aig 1 1 0 2 0\n4\n2\n", (14, 2)),
        (b"aig 1 1 0 3 0\n2\n3\n2\n", (14, 1)),
        (b"aig 1 1 0 0 0\n", (14, 1)),
        (b"aig 2 1 1 1 0\n2 6\n5\n", (14, 2)),
        (b"aig 2 1 1 1 0\n2 2\n5\n", (14, 2)),
        (b"aig 2 1 1 1 0\n6\n5\n", (14, 2)),
        (b"aig 2 1 1 1 0\n4 2 0\n5\n", (13, 2)),
        (b"aig 2 1 1 1 0\n4  0\n5\n", (13, 2)),
        (b"aig 2 1 1 1 0\n04\n5\n", (13, 2)),
        (b"aig 2 1 1 1 0\n\n5\n", (13, 2)),
        (b"aig 2 1 1 1 0\n2\r\n5\n", (13, 2)),
        (b"aig 2 1 1 1 0\n2\n", (13, 3)),
        (b"aig 2 1 1 1 0\n65536\n5\n", (14, 2)),
        (b"aig 2 1 1 1 0\n100000\n5\n", (13, 2)),
        (b"aig 2 1 0 1 2\n", (14, 1)),
        (b"aig 2 1 0 1 1\n6\n\x02\x02", (14, 2)),
        (b"aig 2 1 0 1 1\n\x02\x02", (13, 2)),
    ] {
        assert_eq!(numbers(file), Err(due), "{}", file.escape_ascii());
    }
}

#[test]
fn gates() {
    assert_eq!(with_gate(b"\x02\x02"), gate(2, 0));
    assert_eq!(with_gate(b"\x02\x00"), gate(2, 2));
    assert_eq!(with_gate(b"\x04\x00"), gate(0, 0));
    assert_eq!(with_gate(b"\x01\x03"), gate(3, 0));
    for (bytes, number) in [
        (&b""[..], 18),
        (b"\x02", 18),
        (b"\x00\x00", 14),
        (b"\x05\x00", 14),
        (b"\x02\x03", 14),
        (b"\x05\xff\xff\xff", 14),
        (b"\x00", 14),
        (b"\x05", 14),
        (b"\x80\x00\x00", 18),
        (b"\x82\x00\x00", 18),
        (b"\x02\x82\x00", 18),
        (b"\x02\x80\x00", 18),
        (b"\x02\x82\x80\x00", 18),
        (b"\xff\xff\x7f\x00", 14),
        (b"\x02\xff\xff\x7f", 14),
        (b"\xff\xff\xff", 18),
        (b"\xff\xff\xff\x01\x00", 18),
        (b"\xff", 18),
        (b"\xff\xff", 18),
        (b"\x02\x82", 18),
        (b"\x02\x02\n", 18),
        (b"\x02\x02\x00", 18),
        (b"\x02\x02c\n", 18),
        (b"\x02\x02i0 init\n", 18),
    ] {
        assert_eq!(with_gate(bytes), Err((number, 0)), "{bytes:?}");
    }
}

#[test]
fn which_form() {
    let [net, file] = [&[1, 1, 0, 1, 0, 2], &[1, 1, 0, 1, 0, 3]];
    assert_eq!(numbers(b"aag 1 1 0 1 0\n2\n2\n"), Ok(net.to_vec()));
    assert_eq!(numbers(b"aig 1 1 0 1 0\n3\n"), Ok(file.to_vec()));
    for tag in [
        "AIG ", "Aig ", "aig\t", "aig", "aig  ", " aig ", "aigg ", "ai ", "aag", "aug ", "",
    ] {
        let file = format!("{tag}1 1 0 1 0\n2\n2\n");
        assert_eq!(numbers(file.as_bytes()), Err((13, 1)), "{tag}");
    }
    for file in ["", "aig", "aig ", "aig 1 1 0 1 0", "\n"] {
        assert_eq!(numbers(file.as_bytes()), Err((13, 1)), "{file}");
    }
    // the form of one file behind the word of the other
    assert_eq!(numbers(b"aig 1 1 0 1 0\n2\n2\n"), Err((18, 0)));
    assert_eq!(numbers(b"aag 1 1 0 1 0\n2\n"), Err((13, 3)));
}

#[test]
fn uninitialised_latches() {
    let file = |latches: u16, extra: &str| {
        let mut file = format!("aig {} 1 {latches} 1 0\n", 1 + latches);
        for latch in 0..latches {
            file += &format!("0 {}\n", 2 * (2 + latch));
        }
        file + extra
    };
    let mut net = vec![7, 1, 6, 1, 0];
    net.extend((2..8).flat_map(|variable| [0, 2 * variable]));
    net.push(1);
    assert_eq!(packed(&net), file(6, "1\n").into_bytes());
    assert_eq!(numbers(file(6, "1\n").as_bytes()), Ok(net));
    // the seventh stands in line 8, before a missing output
    assert_eq!(numbers(file(7, "").as_bytes()), Err((14, 8)));
    assert_eq!(numbers(file(7, "1\n").as_bytes()), Err((14, 8)));
    assert_eq!(numbers(file(6, "").as_bytes()), Err((13, 8)));
}

/// Each reset, with 0 written out where the writer leaves it out.
#[test]
fn explicit_resets() {
    let net = vec![5, 1, 3, 2, 1, 2, 0, 10, 1, 8, 8, 11, 4, 9, 2];
    let due = b"aig 5 1 3 2 1\n2\n10 1\n8 8\n11\n4\n\x01\x07";
    assert_eq!(packed(&net), due);
    assert_eq!(numbers(due), Ok(net.clone()));
    let explicit = b"aig 5 1 3 2 1\n2 0\n10 1\n8 8\n11\n4\n\x01\x07";
    assert_eq!(numbers(explicit), Ok(net));
}

#[test]
fn both_forms_read_as_the_same_netlist() {
    for outputs in [Outputs::Accept, Outputs::AcceptAndChecked] {
        for graph in [
            G,
            b"V\ta\n",
            b"S\tp\nK\tk\t2\nV\ta\nE\ta\ta\tt\tk[1]\tp\nE\ta\ta\t-\tk[0]\tp^1\n",
        ] {
            let net = built(graph, outputs);
            let (of_text, of_packed) = (numbers(&text(&net)), numbers(&packed(&net)));
            assert_eq!(of_text, of_packed);
            assert!(net.starts_with(&of_text.unwrap()));
        }
    }
}

#[test]
fn sizes_and_buffers() {
    let net = built(G, Outputs::AcceptAndChecked);
    let due = packed(&net);
    let mut bytes = vec![b'x'; 100];
    assert_eq!(write_packed(&net, &mut bytes), Ok(43));
    assert_eq!(bytes[..43], due);
    assert!(bytes[43..].iter().all(|byte| *byte == b'x'));
    let mut short = [b'x'; 42];
    let refusal = write_packed(&net, &mut short).unwrap_err();
    assert_eq!((numbered(refusal), short), ((12, 0), [b'x'; 42]));
    assert_eq!(write_packed(&net, &mut [0; 43]), Ok(43));
    let refusal = write_packed(&net[..26], &mut short).unwrap_err();
    assert_eq!((numbered(refusal), short), ((16, 0), [b'x'; 42]));

    let mut long = [9; 50];
    assert_eq!(read(&due, &mut long), Ok(27));
    assert_eq!((&long[..27], &long[27..]), (&net[..27], &[9; 23][..]));
    let mut short = [9; 26];
    let refusal = read(&due, &mut short).unwrap_err();
    assert_eq!((numbered(refusal), short), ((12, 0), [9; 26]));
    // 12 is last, 1 first
    let refusal = read(b"aig 1 1 0 1 0\n2\nx", &mut []).unwrap_err();
    assert_eq!(numbered(refusal), (18, 0));
    let mut file = b"aig 1 1 0 1 0\n2\n".to_vec();
    file.resize(65_536, 0);
    assert_eq!(numbers(&file), Err((18, 0)));
    file.push(0);
    assert_eq!(numbers(&file), Err((1, 0)));
    file[0] = b'A';
    assert_eq!(numbers(&file), Err((1, 0)));
}

/// The longest file: 4,094 latches, each with its reset written, six of them uninitialised, and
/// two outputs. With a reset of 0 at the others it is read too.
#[test]
fn longest_files() {
    for reset in [1, 0] {
        let mut net = vec![4_095, 1, 4_094, 2, 0];
        let mut file = "aig 4095 1 4094 2 0\n".to_string();
        for latch in 0..4_094 {
            // the last six own literals have four digits
            let reset = if latch < 4_088 {
                reset
            } else {
                2 * (2 + latch)
            };
            net.extend([8_191, reset]);
            file += &format!("8191 {reset}\n");
        }
        net.extend([8_191, 8_191]);
        file += "8191\n8191\n";
        assert_eq!((net.len(), file.len()), (8_195, 28_706));
        assert_eq!(numbers(file.as_bytes()), Ok(net.clone()));
        match reset {
            1 => assert_eq!(packed(&net), file.into_bytes()),
            _ => assert_eq!(packed(&net).len(), 28_706 - 2 * 4_088),
        }
    }
}
