//! The listing, the agreed runs and the small vectors of the scope document.

use second::arguments::decimal;
use second::campaign::{campaign, Score};
use second::file;
use second::graph::{Graph, Row, BRANCH_WORD, NODE_WORDS};
use second::harden::harden;
use second::programs::{hfile, hlist, hrun, hscore, read, read_hardened, TABLE_WORDS};
use second::refusal::Refusal;
use second::run::{run, Answer, Outcome};
use second::table::{check_runnable, check_source};

const GRAPH_A: &[u8] = &[
    2, 5, 0, 5, 0, 1, 4, 0, 0, 7, 2, 3, 6, 1, 0, 4, 1, 1, 9, 4, 7, 1,
];
const ONE_TARGET: &[u8] = &[1, 2, 0, 4, 0, 0, 0, 1, 1, 7, 0];
const ONE_RET: &[u8] = &[1, 1, 0, 7, 0];
const SELF_JUMP: &[u8] = &[1, 1, 0, 1, 0, 0, 0];

const LISTING: &str = "4 20 5
0 5 0 1 0 0 0
1 4 0 0 7 7 8
2 6 1 0 14 0 0
3 1 1 9 17 0 0
4 7 1 0 0 0 0
5 1 2 1 0 0 0
6 8 0 0 0 0 0
7 1 3 3 9 0 0
8 1 3 2 9 0 0
9 4 0 0 7 10 12
10 2 4 2 2 3 11
11 4 1 2 2 6 2
12 2 4 2 2 3 13
13 4 1 2 3 6 3
14 1 3 6 15 0 0
15 2 4 2 2 3 16
16 4 1 2 4 6 4
17 1 3 7 18 0 0
18 2 4 2 2 3 19
19 4 1 2 4 6 4
";

fn words(line: &str) -> Vec<String> {
    line.split_whitespace().map(String::from).collect()
}

/// A run with budget 100 and four words of event room, and its event words.
fn ran(hardened: bool, file: &[u8], input: &[u32], fault: Option<u32>) -> (Answer, Vec<u32>) {
    let held = if hardened {
        read_hardened(file)
    } else {
        read(file)
    };
    let (graph, table) = held.expect("an accepted file");
    let mut buffer = vec![0; 4];
    let answer = run(&graph, &table, input, &mut buffer, 100, fault).expect("an accepted run");
    buffer.truncate(2 * answer.events as usize);
    (answer, buffer)
}

fn scored(hardened: bool, file: &[u8], input: &[u32]) -> Result<Score, Refusal> {
    let held = if hardened {
        read_hardened(file)
    } else {
        read(file)
    };
    let (graph, table) = held.expect("an accepted file");
    let (mut first, mut second) = (vec![5; 4], vec![6; 4]);
    campaign(&graph, &table, input, &mut first, &mut second, 100)
}

fn refusal(number: u32, place: u32) -> Refusal {
    Refusal { number, place }
}

fn graph(registers: u32, nodes: u32, entry: u32) -> Graph {
    Graph {
        registers,
        nodes,
        entry,
    }
}

#[test]
fn the_listing_byte_for_byte() {
    assert_eq!(hlist(GRAPH_A), LISTING);
}

/// The numbers of the listing without node numbers and spare words, none of
/// which needs a second byte.
#[test]
fn the_hardened_file_is_the_listing_in_bytes() {
    let file = [
        4, 20, 5, 5, 0, 1, 4, 0, 0, 7, 7, 8, 6, 1, 0, 14, 1, 1, 9, 17, 7, 1, 1, 2, 1, 0, 8, 1, 3,
        3, 9, 1, 3, 2, 9, 4, 0, 0, 7, 10, 12, 2, 4, 2, 2, 3, 11, 4, 1, 2, 2, 6, 2, 2, 4, 2, 2, 3,
        13, 4, 1, 2, 3, 6, 3, 1, 3, 6, 15, 2, 4, 2, 2, 3, 16, 4, 1, 2, 4, 6, 4, 1, 3, 7, 18, 2, 4,
        2, 2, 3, 19, 4, 1, 2, 4, 6, 4,
    ];
    assert_eq!(hfile(&[], GRAPH_A), Ok(file.to_vec()));
    assert_eq!(hfile(&words("plain"), GRAPH_A), Ok(GRAPH_A.to_vec()));
    let run = |line: &str, file: &[u8]| hrun(&words(line), file).unwrap();
    assert_eq!(
        run("plain 100 2 none 7", &file),
        run("hardened 100 2 none 7", GRAPH_A)
    );
}

#[test]
fn no_file_for_a_refused_source() {
    let plain = words("plain");
    let line = |line: &str| Err(line.to_string());
    assert_eq!(hfile(&[], &[]), line("refused 1 0"));
    assert_eq!(hfile(&plain, &[0x80, 0]), line("refused 2 0"));
    let catch = [1, 2, 0, 7, 0, 8];
    assert_eq!(hfile(&[], &catch), line("refused 5 6"));
    assert_eq!(hfile(&plain, &catch), Ok(catch.to_vec()));
    let longer = [GRAPH_A, &[0; 40_000]].concat();
    assert_eq!(hfile(&[], &longer), line("refused 10 22"));
    assert_eq!(hfile(&plain, &longer), line("refused 10 22"));
}

#[test]
fn p1_to_p3_undisturbed() {
    let (p1, events) = ran(false, GRAPH_A, &[7], None);
    assert_eq!((p1.outcome, p1.steps), (Outcome::Returned(0), 4));
    assert_eq!(events, [1, 7]);
    let (p2, events) = ran(true, GRAPH_A, &[7], None);
    assert_eq!((p2.outcome, p2.steps), (Outcome::Returned(0), 12));
    assert_eq!((p2.branches, events), (4, vec![1, 7]));
    let (p3, events) = ran(false, GRAPH_A, &[], None);
    assert_eq!((p3.outcome, p3.reads), (Outcome::Returned(9), 1));
    assert!(events.is_empty());
    let (p3, events) = ran(true, GRAPH_A, &[], None);
    assert_eq!((p3.outcome, p3.steps), (Outcome::Returned(9), 12));
    assert!(events.is_empty());
}

#[test]
fn p4_to_p7_inverted() {
    for (place, steps) in [(0, 8), (1, 8), (2, 8), (3, 12)] {
        let (answer, events) = ran(true, GRAPH_A, &[7], Some(place));
        assert_eq!((answer.outcome, answer.steps), (Outcome::Caught, steps));
        assert_eq!(answer.node, 6);
        assert_eq!(events.len(), if place == 3 { 2 } else { 0 });
    }
}

#[test]
fn p8_to_p12_scored() {
    let p8 = Score {
        positions: 1,
        changed: 1,
        ..Score::default()
    };
    assert_eq!(scored(false, GRAPH_A, &[7]), Ok(p8));
    let p9 = Score {
        positions: 4,
        caught: 4,
        ..Score::default()
    };
    assert_eq!(scored(true, GRAPH_A, &[7]), Ok(p9));
    let p10 = Score {
        positions: 3,
        harmless: 2,
        caught: 1,
        ..Score::default()
    };
    assert_eq!(read_hardened(ONE_TARGET).unwrap().0.nodes, 11);
    assert_eq!(ran(true, ONE_TARGET, &[], None).0.steps, 7);
    assert_eq!(scored(true, ONE_TARGET, &[]), Ok(p10));
    assert_eq!(read_hardened(ONE_RET).unwrap().0.nodes, 3);
    assert_eq!(ran(true, ONE_RET, &[], None).0.steps, 2);
    assert_eq!(scored(true, ONE_RET, &[]), Ok(Score::default()));
    assert_eq!(read_hardened(SELF_JUMP).unwrap().0.nodes, 6);
    assert_eq!(scored(true, SELF_JUMP, &[]), Err(refusal(13, 0)));
}

#[test]
fn budgets() {
    let run = |line: &str| hrun(&words(line), GRAPH_A).unwrap();
    assert!(run("hardened 11 2 none 7").starts_with("spent\nnode 4\nsteps 11\n"));
    assert!(run("hardened 12 2 none 7").starts_with("returned 0\nnode 4\nsteps 12\n"));
    assert!(run("hardened 100000 2 none 7").starts_with("returned 0\n"));
    assert_eq!(run("hardened 100001 2 none 7"), "refused 12 0\n");
    assert!(run("plain 0 0 none").starts_with("spent\nnode 0\nsteps 0\n"));
}

#[test]
fn spent_is_looked_at_before_full() {
    let run = |line: &str| hrun(&words(line), GRAPH_A).unwrap();
    assert!(run("plain 2 0 none 7").starts_with("spent\nnode 2\nsteps 2\n"));
    assert!(run("plain 3 1 none 7").starts_with("full\nnode 2\nsteps 2\n"));
    assert!(run("plain 3 2 none 7").starts_with("spent\nnode 4\nsteps 3\n"));
}

#[test]
fn the_lines_of_a_run() {
    let mut expected = "returned 0\nnode 4\nsteps 4\nbranches 1\nreads 1\nevents 1 7\n".to_string();
    expected += "registers 7";
    expected += &" 0".repeat(63);
    expected += "\n";
    assert_eq!(hrun(&words("plain 100 2 none 7"), GRAPH_A), Ok(expected));
    assert_eq!(
        hscore(&words("hardened 100 2 7"), GRAPH_A),
        Ok("4 4 0 0 0 0\n".to_string())
    );
}

#[test]
fn all_branches_reach_the_largest_hardened_graph() {
    let mut numbers = vec![62, 256, 0];
    for node in 0..256 {
        numbers.extend([4, 0, 0, 0, (node + 1) % 256, node]);
    }
    let (graph, _) = read_hardened(&file::encode(&numbers)).unwrap();
    assert_eq!((graph.registers, graph.nodes, graph.entry), (64, 2050, 256));
}

#[test]
fn small_byte_vectors() {
    assert_eq!(hlist(&[0x80, 0]), "refused 2 0\n");
    assert_eq!(hlist(&[0x80]), "refused 1 0\n");
    assert_eq!(hlist(&[]), "refused 1 0\n");
    assert_eq!(hlist(&[0x80, 0x80, 0x80, 0x80]), "refused 1 0\n");
    assert_eq!(hlist(&[0x80, 0x80, 0x80, 0x80, 0]), "refused 2 0\n");
    assert_eq!(hlist(&[0x80, 0x80, 0x80, 0x80, 0x10]), "refused 2 0\n");
    assert_eq!(hlist(&[0x80, 0x80, 0x80, 0x80, 0x8f]), "refused 2 0\n");
    assert_eq!(hlist(&[0xff, 0xff, 0xff, 0xff, 0x0f]), "refused 3 0\n");
    assert_eq!(
        file::number(&[0xff, 0xff, 0xff, 0xff, 0x0f], 0),
        Ok((u32::MAX, 5))
    );
}

#[test]
fn every_edge_of_length_comes_back() {
    let edges = [
        0,
        1,
        127,
        128,
        16383,
        16384,
        2097151,
        2097152,
        268435455,
        268435456,
        u32::MAX,
    ];
    for value in edges {
        let bytes = file::encode(&[value]);
        assert_eq!(file::number(&bytes, 0), Ok((value, bytes.len())));
        assert_eq!(
            file::number(&bytes[..bytes.len() - 1], 0),
            Err(refusal(1, 0))
        );
    }
}

#[test]
fn the_reader_refuses_at_the_offset() {
    assert_eq!(hlist(&[0, 1]), "refused 3 0\n");
    assert_eq!(hlist(&[65, 1]), "refused 3 0\n");
    assert_eq!(hlist(&[1, 0]), "refused 3 1\n");
    assert_eq!(hlist(&[1, 1, 1]), "refused 7 2\n");
    assert_eq!(hlist(&[1, 1, 0, 9]), "refused 5 3\n");
    assert_eq!(hlist(&[1, 1, 0, 7, 1]), "refused 6 4\n");
    assert_eq!(hlist(&[1, 1, 0, 7, 0, 0x80]), "refused 10 5\n");
    assert_eq!(hlist(&[1, 1, 0, 6, 0x80, 2]), "refused 5 4\n");
    assert_eq!(hlist(&[1, 1, 0, 2, 7]), "refused 5 4\n");
    assert_eq!(hlist(&[1, 1, 0, 3, 6]), "refused 5 4\n");
    assert_eq!(hlist(&[1, 1, 0, 1, 0, 0, 1]), "refused 7 6\n");
}

#[test]
fn the_hardener_refuses_with_table_places() {
    assert_eq!(hlist(&[63, 1, 0, 7, 0]), "refused 3 0\n");
    assert_eq!(hlist(&[1, 2, 0, 7, 0, 8]), "refused 5 6\n");
    assert_eq!(hlist(&[1, 2, 0, 7, 0, 7, 0]), "refused 9 1\n");
    let dead_pair = [1, 3, 2, 1, 0, 0, 1, 1, 0, 0, 0, 7, 0];
    assert_eq!(hlist(&dead_pair), "refused 9 0\n");
}

#[test]
fn tables_are_checked_in_order() {
    let ret = [7, 0, 0, 0, 0, 0];
    assert_eq!(check_runnable(&graph(65, 9, 9), &ret), Err(refusal(3, 0)));
    assert_eq!(check_runnable(&graph(1, 2, 9), &ret), Err(refusal(4, 12)));
    assert_eq!(check_runnable(&graph(1, 1, 1), &ret), Err(refusal(7, 0)));
    assert_eq!(check_runnable(&graph(64, 1, 0), &ret), Ok(()));
    assert_eq!(check_source(&graph(63, 1, 0), &ret), Err(refusal(3, 0)));
    let spare = [7, 0, 0, 0, 1, 0, 99];
    assert_eq!(check_source(&graph(1, 1, 0), &spare), Err(refusal(8, 4)));
    let tail = [7, 0, 0, 0, 0, 0, 99, 99];
    assert_eq!(check_source(&graph(1, 1, 0), &tail), Ok(()));
}

#[test]
fn refusals_leave_the_buffers() {
    let mut table = vec![3; 29];
    assert_eq!(file::read(GRAPH_A, &mut table), Err(refusal(4, 30)));
    assert_eq!(file::read(&GRAPH_A[..21], &mut table), Err(refusal(4, 30)));
    assert!(table.iter().all(|&word| word == 3));
    let (graph, table) = read(GRAPH_A).unwrap();
    let mut output = vec![3; 119];
    assert_eq!(harden(&graph, &table, &mut output), Err(refusal(11, 120)));
    assert!(output.iter().all(|&word| word == 3));
    let (mut first, mut second) = (vec![3; 2], vec![4; 3]);
    let refused = campaign(&graph, &table, &[], &mut first, &mut second, 100);
    assert_eq!(refused, Err(refusal(14, 0)));
    let refused = campaign(&graph, &table, &[], &mut first, &mut second[..2], 3);
    assert_eq!(refused, Err(refusal(13, 0)));
    assert_eq!((first, second), (vec![3; 2], vec![4; 3]));
}

#[test]
fn answers_write_no_more_than_they_must() {
    let mut table = vec![3; 31];
    let graph = file::read(GRAPH_A, &mut table).unwrap();
    assert_eq!(table[30], 3);
    let mut output = vec![3; 121];
    harden(&graph, &table, &mut output).unwrap();
    assert_eq!((output[119], output[120]), (4, 3));
    let (mut first, mut second) = (vec![3; 4], vec![4; 4]);
    campaign(&graph, &table, &[7], &mut first, &mut second, 100).unwrap();
    assert_eq!((first, second), (vec![1, 7, 3, 3], vec![0; 4]));
}

#[test]
fn the_longest_file() {
    let mut numbers = vec![64, 2050, 2049];
    for _ in 0..2050 {
        numbers.extend([4, 5, 63, u32::MAX, 2049, 2048]);
    }
    let mut bytes = file::encode(&numbers);
    assert_eq!(bytes.len(), 24_605);
    let (graph, table) = read(&bytes).unwrap();
    assert_eq!(table.len(), TABLE_WORDS);
    assert_eq!(graph.nodes as usize * NODE_WORDS, TABLE_WORDS);
    let mut short = vec![3; 24_604];
    let refused = file::write(&graph, &table, &mut short);
    assert_eq!(refused, Err(refusal(15, 24_605)));
    assert!(short.iter().all(|&byte| byte == 3));
    let mut out = vec![3; 24_605];
    assert_eq!(file::write(&graph, &table, &mut out), Ok(24_605));
    assert_eq!(out, bytes);
    bytes.extend(vec![0; 9000]);
    assert_eq!(read(&bytes), Err(refusal(10, 24_605)));
}

/// A number takes no fewer bytes than a smaller one, so each field at its
/// last value makes the longest node of its kind.
#[test]
fn no_file_is_longer() {
    let last: [Row; 8] = [
        [1, 63, u32::MAX, 2049, 0, 0],
        [2, 6, 63, 63, 63, 2049],
        [3, 5, 63, 63, 2049, 2049],
        [4, 5, 63, u32::MAX, 2049, 2049],
        [5, 63, 2049, 0, 0, 0],
        [6, 255, 63, 2049, 0, 0],
        [7, 63, 0, 0, 0, 0],
        [8, 0, 0, 0, 0, 0],
    ];
    let mut out = vec![0; file::LONGEST];
    for row in last {
        let length = file::write(&graph(64, 2050, 2049), &row.repeat(2050), &mut out).unwrap();
        assert_eq!(length == file::LONGEST, row[0] == BRANCH_WORD, "{row:?}");
    }
    for (least, length) in [
        ([4, 0, 0, 1 << 28, 128, 128], 24_605),
        ([4, 0, 0, (1 << 28) - 1, 128, 128], 24_605 - 2050),
        ([4, 0, 0, 1 << 28, 127, 128], 24_605 - 2050),
        ([4, 0, 0, 1 << 28, 128, 127], 24_605 - 2050),
    ] {
        let table = least.repeat(2050);
        assert_eq!(
            file::write(&graph(1, 2050, 128), &table, &mut out),
            Ok(length)
        );
    }
}

#[test]
fn graph_a_is_written_as_its_bytes() {
    let (graph, table) = read(GRAPH_A).unwrap();
    let mut exact = vec![3; 22];
    assert_eq!(file::write(&graph, &table[..30], &mut exact), Ok(22));
    assert_eq!(exact, GRAPH_A);
    let mut longer = vec![3; 25];
    assert_eq!(file::write(&graph, &table, &mut longer), Ok(22));
    assert_eq!((&longer[..22], &longer[22..]), (GRAPH_A, &[3; 3][..]));
}

/// Each table has one fault, and all that come after it in the order.
#[test]
fn the_writer_refuses_in_order() {
    let good = [7, 0, 0, 0, 0, 0];
    let both = |first: Row, second: Row| [first, second].concat();
    let bad = [9; 6];
    let mut out = vec![3; 6];
    for ((registers, nodes, entry), table, expected) in [
        ((0, 0, 9), vec![], refusal(3, 0)),
        ((65, 2, 9), vec![], refusal(3, 0)),
        ((1, 0, 9), vec![], refusal(3, 0)),
        ((1, 2051, 9), vec![], refusal(3, 0)),
        ((u32::MAX, u32::MAX, u32::MAX), vec![], refusal(3, 0)),
        ((1, 2, 9), bad[..5].to_vec(), refusal(4, 12)),
        ((1, 2, 2), both(bad, bad), refusal(7, 0)),
        ((1, 2, u32::MAX), both(bad, bad), refusal(7, 0)),
        ((1, 2, 1), both(bad, bad), refusal(5, 0)),
        ((1, 2, 1), both([7, 1, 1, 0, 0, 0], bad), refusal(6, 1)),
        ((1, 2, 1), both([5, 0, 2, 1, 0, 0], bad), refusal(7, 2)),
        ((1, 2, 1), both([8, 0, 0, 0, 0, 1], bad), refusal(8, 5)),
        ((1, 2, 1), both(good, bad), refusal(5, 6)),
        ((1, 2, 1), both(good, good), refusal(15, 7)),
    ] {
        let refused = file::write(&graph(registers, nodes, entry), &table, &mut out);
        assert_eq!(refused, Err(expected), "{table:?}");
        assert_eq!(out, [3; 6]);
    }
    let refused = file::write(&graph(1, 2, 1), &both(good, good), &mut []);
    assert_eq!(refused, Err(refusal(15, 7)));
}

#[test]
fn arguments_are_decimal() {
    assert_eq!(decimal("0000000007"), Some(7));
    assert_eq!(decimal("4294967295"), Some(u32::MAX));
    for bad in ["", "+1", "-1", " 1", "1a", "4294967296", "00000000007", "٣"] {
        assert_eq!(decimal(bad), None, "{bad:?}");
    }
}

/// The lines of the guide; of several wrong arguments the first in its table.
#[test]
fn bad_arguments_are_named() {
    let line = |what: &str| Err(format!("argument {what}"));
    let mode = line("1: expected MODE, plain or hardened");
    let budget = line("2: expected BUDGET, a number up to 4294967295");
    let room = line("3: expected ROOM, a number up to 16384");
    let fault = line("4: expected FAULT, none or a number up to 4294967295");
    let word = line("6: expected WORD, a number up to 4294967295");
    for (arguments, expected) in [
        ("", &mode),
        ("plainx 1 1 none", &mode),
        ("odd x 16385 no x", &mode),
        ("plain", &budget),
        ("plain 00000000001 1 none", &budget),
        ("plain 1", &room),
        ("plain 1 16385 none", &room),
        ("plain 1 1", &fault),
        ("plain 1 1 no x", &fault),
        ("plain 1 1 none 7 x y", &word),
    ] {
        assert_eq!(hrun(&words(arguments), GRAPH_A), *expected, "{arguments}");
    }
    let blank = ["plain", " 1", "1", "none"].map(String::from);
    assert_eq!(hrun(&blank, GRAPH_A), budget);
}

#[test]
fn hfile_takes_one_word_or_none() {
    let line = |what: &str| Err(format!("argument {what}"));
    let first = line("1: expected plain, or no argument");
    for bad in ["", "hardened", "Plain", "plainx", "plain ", "plai"] {
        assert_eq!(hfile(&[bad.to_string()], GRAPH_A), first, "{bad:?}");
        let followed = [bad, "plain"].map(String::from);
        assert_eq!(hfile(&followed, &[]), first, "{bad:?}");
    }
    let second = line("2: expected no more than one argument");
    assert_eq!(hfile(&words("plain plain"), GRAPH_A), second);
    assert_eq!(hfile(&words("plain x y"), &[]), second);
}

#[test]
fn words_are_counted_before_they_are_looked_at() {
    let line = |fixed: &str, count: usize| words(&format!("{fixed}{}", " 0".repeat(count)));
    let over = |place| {
        Err(format!(
            "argument {place}: expected no more than 4096 words"
        ))
    };
    assert!(hscore(&line("plain 1 1", 4096), GRAPH_A).is_ok());
    assert_eq!(hscore(&line("plain 1 1", 4097), GRAPH_A), over(4100));
    assert_eq!(hscore(&line("plain 1 1 x", 4099), GRAPH_A), over(4100));
    assert!(hrun(&line("plain 1 1 none", 4096), GRAPH_A).is_ok());
    assert_eq!(hrun(&line("plain 1 1 none", 4097), GRAPH_A), over(4101));
}
