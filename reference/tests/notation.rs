//! The text notation: its inverse laws and its faults.

use reference::book::{Book, Cell, Node, Program, Region, Right, Trigger};
use reference::generate;
use reference::notation::{assemble, list};
use reference::places::Places;
use reference::random::Random;
use std::io::Write;
use std::process::{Command, Output, Stdio};

/// Every kind of sentence and node, with names, blank lines and comments.
const ALL_KINDS: &str = "
# a comment alone
cell 0 1 0 = 250   # a comment behind
cell 0 2 0 = -2147483648
cell 7 7 7 = 2147483647
region flat1 = table 0 owners 1-1 lines 0-7
region all_7 = table 7 owners 0-7 lines 0-7
public all_7
read 1 flat1
write 0 flat1
node one = constant 1
node far = constant -2147483648
\tnode   v15 =   variable 15
node plus = one + v15
node minus = one - v15
node same = one equals v15
node under = one less v15
node n1 = count table 0 owners one to far lines v15 to plus
node n2 = sum table 1 owners one to one lines one to one
node n3 = smallest table 2 owners one to one lines one to one
node n4 = largest table 7 owners one to one lines one to one
node rest = skip
node keep = set 3 to plus
node both = rest then keep
node fork = if same then rest else both
node turn = while under do fork
node post = put n2 at table 0 owner one line far
node wipe = clear table 0 owner far line one
node show = out n4 to 7
node open = grant read flat1 to 1
node lend = grant write all_7 to 2
node shut = revoke read flat1 from 3
node deny = revoke write all_7 from 4
node lift = raise 15 by all_7
node main = turn then show
program 0 main
program 7 show
trigger flat1 put 0 post
trigger all_7 clear 7 both
";

fn node(kind: u8, p: u8, [a, b, c, d]: [u16; 4], k: i32) -> Node {
    Node {
        kind,
        p,
        a,
        b,
        c,
        d,
        k,
    }
}

fn all_kinds_nodes() -> Vec<Node> {
    vec![
        node(1, 0, [0; 4], 1),
        node(1, 0, [0; 4], i32::MIN),
        node(2, 15, [0; 4], 0),
        node(3, 0, [0, 2, 0, 0], 0),
        node(4, 0, [0, 2, 0, 0], 0),
        node(5, 0, [0, 2, 0, 0], 0),
        node(6, 0, [0, 2, 0, 0], 0),
        node(8, 0, [0, 1, 2, 3], 0),
        node(9, 1, [0; 4], 0),
        node(10, 2, [0; 4], 0),
        node(11, 7, [0; 4], 0),
        node(16, 0, [0; 4], 0),
        node(17, 3, [3, 0, 0, 0], 0),
        node(18, 0, [11, 12, 0, 0], 0),
        node(19, 0, [5, 11, 13, 0], 0),
        node(20, 0, [6, 14, 0, 0], 0),
        node(21, 0, [0, 1, 8, 0], 0),
        node(22, 0, [1, 0, 0, 0], 0),
        node(23, 7, [10, 0, 0, 0], 0),
        node(24, 1, [0, 1, 0, 0], 0),
        node(24, 2, [1, 2, 0, 0], 0),
        node(25, 3, [0, 1, 0, 0], 0),
        node(25, 4, [1, 2, 0, 0], 0),
        node(26, 15, [1, 0, 0, 0], 0),
        node(18, 0, [15, 18, 0, 0], 0),
    ]
}

fn cell(table: u8, owner: u8, line: u8, amount: i32) -> Cell {
    Cell {
        table,
        owner,
        line,
        amount,
    }
}

fn region(table: u8, owners: [u8; 2], lines: [u8; 2]) -> Region {
    Region {
        table,
        owner_first: owners[0],
        owner_last: owners[1],
        line_first: lines[0],
        line_last: lines[1],
    }
}

fn right(kind: u8, user: u8, region: u8) -> Right {
    Right { kind, user, region }
}

fn trigger(region: u8, event: u8, user: u8, body: u16) -> Trigger {
    Trigger {
        region,
        event,
        user,
        body,
    }
}

#[test]
fn every_form_gives_its_record() {
    let expected = Book {
        cells: vec![
            cell(0, 1, 0, 250),
            cell(0, 2, 0, i32::MIN),
            cell(7, 7, 7, i32::MAX),
        ],
        regions: vec![region(0, [1, 1], [0, 7]), region(7, [0, 7], [0, 7])],
        rights: vec![right(0, 0, 1), right(1, 1, 0), right(2, 0, 0)],
        nodes: all_kinds_nodes(),
        programs: vec![Program { user: 0, root: 24 }, Program { user: 7, root: 18 }],
        triggers: vec![trigger(0, 1, 0, 16), trigger(1, 2, 7, 13)],
        labels: None,
    };
    let book = assemble(ALL_KINDS).expect("the text has no fault");
    assert_eq!(book, expected);
    assert_eq!(Book::decode(&book.encode()), Ok(book));
}

#[test]
fn a_listing_of_a_text_assembles_to_the_same_book() {
    let book = assemble(ALL_KINDS).expect("the text has no fault");
    assert_eq!(assemble(&list(&book)), Ok(book));
    assert_eq!(assemble(""), Ok(Book::default()));
    assert_eq!(list(&Book::default()), "");
}

#[test]
fn list_and_assemble_undo_each_other() {
    for seed in 0..6_000 {
        let book = generate::of_either_version(&mut Random::new(seed));
        let text = list(&book);
        let back = assemble(&text).unwrap_or_else(|fault| panic!("seed {seed}: {fault}"));
        assert_eq!(back, book, "seed {seed}");
        assert_eq!(list(&back), text, "seed {seed}");
    }
}

/// Lines before the faulty one, so that it is line 6.
const BEFORE: &str = "cell 1 1 1 = 1
region r = table 0 owners 0-7 lines 0-7
node e = constant 0
node c = skip

";

/// A faulty line and the message for it.
const FAULTS: &[(&str, &str)] = &[
    ("shell 1", "no sentence starts with `shell`"),
    (
        "cell 1 2 = 3",
        "the form is: cell TABLE OWNER LINE = AMOUNT",
    ),
    ("cell 8 0 0 = 1", "table 8 is outside 0-7"),
    ("cell 2 -1 0 = 1", "owner -1 is outside 0-7"),
    (
        "cell 2 0 99999999999999999999 = 1",
        "line 99999999999999999999 is outside 0-7",
    ),
    ("cell 2 0 x = 1", "`x` should be a number"),
    ("cell 2 0 +1 = 1", "`+1` should be a number"),
    (
        "cell 2 0 0 = 2147483648",
        "2147483648 is not a signed 32-bit number",
    ),
    (
        "cell 1 1 1 = 2",
        "cells stand in rising order of table, owner, line",
    ),
    (
        "region s = table 0 owners 3-2 lines 0-7",
        "owners 3-2: first is above last",
    ),
    (
        "region s = table 0 owners 0-8 lines 0-7",
        "owners 8 is outside 0-7",
    ),
    (
        "region s = table 0 owners 0 lines 0-7",
        "owners `0` should be FIRST-LAST",
    ),
    (
        "region r = table 0 owners 0-0 lines 0-7",
        "`r` is a name already",
    ),
    (
        "region e = table 0 owners 0-0 lines 0-7",
        "`e` is a name already",
    ),
    (
        "region s",
        "the form is: region NAME = table TABLE owners FIRST-LAST lines FIRST-LAST",
    ),
    ("public s", "`s` is not declared above"),
    ("public e", "`e` should be a region"),
    ("read 8 r", "user 8 is outside 0-7"),
    ("write r 0", "`r` should be a number"),
    ("read 0 r r", "the form is: read USER REGION"),
    ("node e = skip", "`e` is a name already"),
    (
        "node put = skip",
        "`put` is a word of the notation and cannot be a name",
    ),
    (
        "node by = skip",
        "`by` is a word of the notation and cannot be a name",
    ),
    (
        "node 1st = skip",
        "`1st` is no name: names are letters, digits and _, a letter first",
    ),
    (
        "node a-b = skip",
        "`a-b` is no name: names are letters, digits and _, a letter first",
    ),
    ("node n =", "the form is: node NAME = FORM"),
    ("node n = n then n", "`n` is not declared above"),
    ("node n = jump e", "no node has the form `jump e`"),
    ("node n = skip skip", "the form is: node NAME = skip"),
    (
        "node n = constant 1 2",
        "the form is: node NAME = constant AMOUNT",
    ),
    (
        "node n = constant -2147483649",
        "-2147483649 is not a signed 32-bit number",
    ),
    ("node n = variable 16", "variable 16 is outside 0-15"),
    ("node n = e + c", "`c` should be an expression"),
    ("node n = e + e e", "the form is: node NAME = A + B"),
    ("node n = e less r", "`r` should be an expression"),
    (
        "node n = sum table 0 owners e to e",
        "the form is: node NAME = sum table TABLE owners A to B lines C to D",
    ),
    (
        "node n = count table 9 owners e to e lines e to e",
        "table 9 is outside 0-7",
    ),
    ("node n = set 16 to e", "variable 16 is outside 0-15"),
    ("node n = set 1 to c", "`c` should be an expression"),
    ("node n = c then e", "`e` should be a command"),
    (
        "node n = if e then c",
        "the form is: node NAME = if A then B else C",
    ),
    ("node n = while c do c", "`c` should be an expression"),
    (
        "node n = put e at table 0 owner e line c",
        "`c` should be an expression",
    ),
    (
        "node n = clear table 0 owner e",
        "the form is: node NAME = clear table TABLE owner A line B",
    ),
    ("node n = out e to 8", "user 8 is outside 0-7"),
    ("node n = grant all r to 1", "`all` should be read or write"),
    (
        "node n = grant read r from 1",
        "the form is: node NAME = grant read|write REGION to USER",
    ),
    ("node n = revoke read e from 1", "`e` should be a region"),
    ("node n = raise 3 by c", "`c` should be a region"),
    ("program 0 e", "`e` should be a command"),
    ("program 9 c", "user 9 is outside 0-7"),
    (
        "trigger r out 0 c",
        "the form is: trigger REGION put|clear USER BODY",
    ),
    ("trigger r put 0 r", "`r` should be a command"),
    (
        "label 1 1 1",
        "the form is: label TABLE OWNER LINE = PLACE PLACE .. (or: nothing)",
    ),
    (
        "label 1 1 1 =",
        "the form is: label TABLE OWNER LINE = PLACE PLACE .. (or: nothing)",
    ),
    ("label 1 8 1 = nothing", "owner 8 is outside 0-7"),
    (
        "label 1 1 1 = 1.1.1",
        "a cell labelled by its own place alone has no label record",
    ),
    ("label 1 1 1 = 1.1.8", BAD_PLACE_118),
    ("label 1 1 1 = 0.0.0 1.1", BAD_PLACE_11),
    ("version 1", "the form is: version 2"),
    ("version", "the form is: version 2"),
];

const BAD_PLACE_118: &str =
    "`1.1.8` should be TABLE.OWNER.LINE, where owner and line may be FIRST-LAST";
const BAD_PLACE_11: &str =
    "`1.1` should be TABLE.OWNER.LINE, where owner and line may be FIRST-LAST";

/// The label of a cell whose record is this text.
fn label_of(text: &str) -> Option<Places> {
    let book = assemble(&format!("label 2 3 4 = {text}\n")).ok()?;
    let records = book.labels?;
    assert_eq!(records.len(), 1);
    assert_eq!(records[0].place, 156);
    Some(records[0].label)
}

#[test]
fn a_label_is_a_list_of_places() {
    let places = |members: &[usize]| {
        members.iter().fold(Places::EMPTY, |set, &place| {
            set.union(&Places::single(place))
        })
    };
    for (text, members) in [
        ("0.0.0", &[0][..]),
        ("7.7.7 2.3.4", &[511, 156]),
        ("1.0.2-4", &[66, 67, 68]),
        ("1.6-7.0", &[112, 120]),
        ("3.0-1.6-7 3.1.7", &[198, 199, 206, 207]),
        ("nothing", &[]),
    ] {
        assert_eq!(label_of(text), Some(places(members)), "{text}");
    }
    let full = "0.0-7.0-7 1.0-7.0-7 2.0-7.0-7 3.0-7.0-7 4.0-7.0-7 5.0-7.0-7 6.0-7.0-7 7.0-7.0-7";
    assert_eq!(label_of(full), Some(Places([u64::MAX; 8])));
    for text in [
        "8.0.0",
        "0.8.0",
        "0.0",
        "0.0.0.0",
        "0.0.3-2",
        "0.0.1-",
        "0.0.-1",
        "0..0",
        "00.0.0",
        "0-1.0.0",
        "nothing 0.0.0",
        "nothing nothing",
    ] {
        assert_eq!(label_of(text), None, "{text}");
    }
}

#[test]
fn labels_stand_in_rising_order() {
    for (first, second) in [("0 0 1", "0 0 0"), ("0 0 1", "0 0 1"), ("3 0 0", "2 7 7")] {
        let text = format!("label {first} = nothing\nlabel {second} = nothing\n");
        let fault = assemble(&text).expect_err(second);
        assert_eq!(fault.line, 2);
        assert_eq!(
            fault.message,
            "labels stand in rising order of table, owner, line"
        );
    }
}

/// A label record or the line about it makes a book one of version 2, and
/// nothing else does. Names may be what they always could.
#[test]
fn a_text_says_its_version() {
    assert_eq!(assemble(ALL_KINDS).unwrap().version(), 1);
    let old = "node label = skip\nnode version = label then label\nnode nothing = skip\n";
    assert_eq!(assemble(old).unwrap().version(), 1);
    for line in ["version 2", "label 0 0 0 = nothing", "version 2\nversion 2"] {
        let before = assemble(&format!("{line}\n{ALL_KINDS}")).unwrap();
        let after = assemble(&format!("{ALL_KINDS}{line}\n")).unwrap();
        assert_eq!(before.version(), 2, "{line}");
        assert_eq!(before, after, "{line}");
        assert_eq!(Book::decode(&before.encode()).as_ref(), Ok(&before));
    }
    let without_labels = assemble("version 2").unwrap();
    assert_eq!(without_labels.encode().len(), 40);
    assert_eq!(list(&without_labels), "version 2\n");
}

#[test]
fn a_listed_label_is_short() {
    let mut book = assemble("label 0 0 0 = nothing\nlabel 7 7 7 = 0.1.0 0.2.0-7\n").unwrap();
    let text = "version 2\nlabel 0 0 0 = nothing\nlabel 7 7 7 = 0.1.0 0.2.0-7\n";
    assert_eq!(list(&book), text);
    let labels = book.labels.as_mut().unwrap();
    labels[0].label = Places([u64::MAX, 0, 0x0505, 0, 0, 0, 0, 1 << 63]);
    labels.pop();
    let text = "version 2\nlabel 0 0 0 = 0.0-7.0-7 2.0-1.0 2.0-1.2 7.7.7\n";
    assert_eq!(list(&book), text);
}

#[test]
fn each_fault_names_its_line() {
    for (line, message) in FAULTS {
        let fault = assemble(&format!("{BEFORE}{line}\n")).expect_err(line);
        assert_eq!(fault.to_string(), format!("line 6: {message}"), "{line}");
    }
}

/// One record more than a section holds.
#[test]
fn full_sections_take_no_more() {
    let sections = [
        ("read 0 r\n", 64, "a book has at most 64 rights"),
        ("program 0 c\n", 8, "a book has at most 8 programs"),
        ("trigger r put 0 c\n", 8, "a book has at most 8 triggers"),
    ];
    for (line, most, message) in sections {
        let full = format!("{BEFORE}{}", line.repeat(most));
        assert!(assemble(&full).is_ok(), "{line}");
        let fault = assemble(&format!("{full}{line}")).expect_err(line);
        assert_eq!(fault.line, 6 + most);
        assert_eq!(fault.message, message);
    }
}

#[test]
fn full_sections_take_no_more_names() {
    let sections = [
        (
            "region",
            "table 0 owners 0-0 lines 0-0",
            63,
            "a book has at most 64 regions",
        ),
        ("node", "skip", 1_022, "a book has at most 1024 nodes"),
    ];
    for (word, form, more, message) in sections {
        let mut text = BEFORE.to_string();
        for index in 0..more {
            text.push_str(&format!("{word} x{index} = {form}\n"));
        }
        assert!(assemble(&text).is_ok(), "{word}");
        text.push_str(&format!("{word} last = {form}\n"));
        let fault = assemble(&text).expect_err(word);
        assert_eq!(fault.line, 6 + more);
        assert_eq!(fault.message, message);
    }
}

/// Words in any order are a fault or a book, and never a panic.
#[test]
fn any_words_are_read_without_a_panic() {
    let words: Vec<&str> = ALL_KINDS.split_whitespace().collect();
    let mut random = Random::new(1);
    for _ in 0..20_000 {
        let mut text = BEFORE.to_string();
        for _ in 0..random.below(12) {
            text.push_str(random.pick(&words));
            text.push(if random.chance(10) { '\n' } else { ' ' });
        }
        if let Ok(book) = assemble(&text) {
            assert_eq!(assemble(&list(&book)), Ok(book), "{text}");
        }
    }
}

/// The rule that the text does not show is the decoder's to check.
#[test]
fn what_a_trigger_reaches_is_left_to_the_decoder() {
    let text = format!("{BEFORE}node o = out e to 0\ntrigger r put 0 o\n");
    let book = assemble(&text).expect("each line is right");
    let refusal = Book::decode(&book.encode()).expect_err("the body shows something");
    assert_eq!((refusal.number, refusal.index), (10, 0));
}

/// Runs a command of the program on this standard input.
fn command(word: &str, input: &[u8]) -> Output {
    let mut child = Command::new(env!("CARGO_BIN_EXE_reference"))
        .arg(word)
        .stdin(Stdio::piped())
        .stdout(Stdio::piped())
        .stderr(Stdio::piped())
        .spawn()
        .expect("the program starts");
    let mut stdin = child.stdin.take().expect("standard input is piped");
    stdin.write_all(input).expect("the program reads its input");
    drop(stdin);
    child.wait_with_output().expect("the program ends")
}

#[test]
fn the_program_assembles_and_lists() {
    let book = assemble(ALL_KINDS).expect("the text has no fault");
    let assembled = command("assemble", ALL_KINDS.as_bytes());
    assert_eq!(assembled.stdout, book.encode());
    assert_eq!(assembled.status.code(), Some(0));
    let listed = command("list", &assembled.stdout);
    assert_eq!(listed.stdout, list(&book).as_bytes());
    assert_eq!(listed.status.code(), Some(0));
}

#[test]
fn the_program_tells_faults_and_refusals() {
    let reaches = format!("{BEFORE}node o = out e to 0\ntrigger r put 0 o\n");
    let cases: [(&str, &[u8], &[u8]); 4] = [
        (
            "assemble",
            b"\nnode x",
            b"line 2: the form is: node NAME = FORM\n",
        ),
        ("assemble", reaches.as_bytes(), b"refused 10 0\n"),
        (
            "assemble",
            b"\xFF",
            b"invalid utf-8 sequence of 1 bytes from index 0\n",
        ),
        ("list", b"BKWS", b"refused 2 0\n"),
    ];
    for (word, input, message) in cases {
        let output = command(word, input);
        assert_eq!(output.stderr, message);
        assert_eq!(output.stdout, b"");
        assert_eq!(output.status.code(), Some(1));
    }
}
