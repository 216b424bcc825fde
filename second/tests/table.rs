//! The table program.

use second::table::run;

/// Lines of input, each ended by CR LF.
fn lines(lines: &[&str]) -> Vec<u8> {
    (lines.join("\r\n") + "\r\n").into_bytes()
}

const EXAMPLE: &[&str] = &[
    "parent,tag,+,#,+,#",
    "0,1,0,1,0,1",
    "0,2,0,1,0,1",
    "1,0,1,1,0,0",
    "1,0,0,0,1,1",
];

/// The whole output after the header line.
fn prints(input: &[u8], expected: &[&str]) {
    let mut all = vec!["search,refusal,place,node"];
    all.extend(expected);
    assert_eq!(
        String::from_utf8(run(input)).unwrap(),
        String::from_utf8(lines(&all)).unwrap()
    );
}

fn input_at(place: usize, input: &[u8]) {
    prints(input, &[&format!("input,6,{place},")]);
}

#[test]
fn the_example() {
    assert_eq!(
        run(&lines(EXAMPLE)),
        b"search,refusal,place,node\r\nelca,0,0,1\r\nslca,0,0,1\r\nvalid,0,0,1\r\n"
    );
}

#[test]
fn last_line_end_is_optional_once() {
    let mut input = lines(EXAMPLE);
    input.truncate(input.len() - 2);
    prints(&input, &["elca,0,0,1", "slca,0,0,1", "valid,0,0,1"]);
    input.push(b'\r');
    input_at(5, &input);
    input.push(b'\n');
    prints(&input, &["elca,0,0,1", "slca,0,0,1", "valid,0,0,1"]);
    input.extend_from_slice(b"\r\n");
    input_at(6, &input);
}

#[test]
fn line_ends() {
    input_at(1, b"");
    input_at(1, b"\r\n");
    input_at(1, b"\n");
    input_at(1, b"\r");
    input_at(
        1,
        &lines(EXAMPLE)
            .into_iter()
            .filter(|&byte| byte != b'\r')
            .collect::<Vec<u8>>(),
    );
    input_at(3, b"parent,tag,+,#\r\n0,1,1,1\r\n0,1,0,0\n0,1,0,0\r\n");
    input_at(3, b"parent,tag,+,#\r\n0,1,1,1\r\n0,1,0,0\r0,1,0,0\r\n");
    input_at(2, b"parent,tag,+,#\r\n0,1,1,1\r\r\n0,1,0,0\r\n");
    input_at(3, b"parent,tag,+,#\r\n0,1,1,1\r\n\r\n0,1,0,0\r\n");
}

#[test]
fn headers() {
    for header in [
        "parent,tag",
        "parent,tag,",
        "parent",
        "tag,parent,+,#",
        "Parent,tag,+,#",
        "\"parent\",tag,+,#",
        "\u{feff}parent,tag,+,#",
        "parent, tag,+,#",
        "parent,tag,+",
        "parent,tag,+,#,",
        "parent,tag,#,+",
        "parent,tag,-,#",
        "parent,tag,-,#,+,#",
        "parent,tag,+,#,-,#,+,#",
        "parent,tag,*,#",
        "parent,tag,+,#,+,#,+,#,+,#,+,#,+,#,+,#,+,#,+,#",
        "parent,tag,+,#,-,#,-,#,-,#,-,#,-,#,-,#,-,#,-,#",
    ] {
        input_at(1, &lines(&[header, "0,1,1,1"]));
    }
    // No node lines: the searches say SIZE.
    let size = ["elca,1,0,", "slca,1,0,", "valid,1,0,"];
    prints(b"parent,tag,+,#", &size);
    prints(b"parent,tag,+,#\r\n", &size);
    prints(b"parent,tag,+,#,-,#,-,#,-,#,-,#,-,#,-,#,-,#\r\n", &size);
}

#[test]
fn fields() {
    for row in [
        "",
        "0",
        "0,1",
        "0,1,1",
        "0,1,1,1,",
        "0,1,1,1,1",
        "00,1,1,1",
        "0,01,1,1",
        "0,1,1,01",
        "0,100000,1,1",
        "0,1,2,1",
        "0,1,01,1",
        "0,1,,1",
        "0,1,1,",
        ",1,1,1",
        "0,\"1\",1,1",
        "0,+1,1,1",
        "0,-1,1,1",
        "0, 1,1,1",
        "0,1 ,1,1",
        "0,1.0,1,1",
        "0;1,1,1",
        "0,x,1,1",
        "0,1,1,\u{661}",
        "0,1,1,1\0",
    ] {
        input_at(2, &lines(&["parent,tag,+,#", row]));
        input_at(3, &lines(&["parent,tag,+,#", "0,1,1,1", row, "bad"]));
    }
    prints(
        &lines(&["parent,tag,+,#", "0,99999,1,1"]),
        &["elca,0,0,0", "slca,0,0,0", "valid,0,0,0"],
    );
}

#[test]
fn refusals_and_empty_answers() {
    let tree = ["elca,2,1,", "slca,2,1,", "valid,2,1,"];
    prints(&lines(&["parent,tag,+,#", "0,1,1,1", "1,1,0,0"]), &tree);
    prints(&lines(&["parent,tag,+,#", "0,1,1,1", "99999,1,0,0"]), &tree);
    let empty = ["elca,0,0,", "slca,0,0,", "valid,0,0,"];
    prints(&lines(&["parent,tag,+,#", "0,1,0,0", "0,1,0,0"]), &empty);
    let count = ["elca,4,1,", "slca,4,1,", "valid,4,1,"];
    prints(&lines(&["parent,tag,+,#", "0,1,0,0", "0,1,0,1"]), &count);
    // A wrong count of a negative word shows in valid alone, counted over all words.
    prints(
        &lines(&["parent,tag,+,#,-,#", "0,1,1,1,0,0", "0,1,0,0,0,5"]),
        &["elca,0,0,0", "slca,0,0,0", "valid,4,3,"],
    );
    // Several nodes, and NOT.
    prints(
        &lines(&[
            "parent,tag,+,#,-,#",
            "0,1,0,2,0,1",
            "0,2,0,1,0,1",
            "1,0,1,1,0,0",
            "1,0,0,0,1,1",
            "0,2,0,1,0,0",
            "4,0,1,1,0,0",
        ]),
        &[
            "elca,0,0,2",
            "elca,0,0,5",
            "slca,0,0,2",
            "slca,0,0,5",
            "valid,0,0,5",
        ],
    );
}

#[test]
fn limits() {
    let table = |nodes: usize| {
        let mut all = vec!["parent,tag,+,#", "0,1,0,0"];
        all.extend(vec!["0,2,0,0"; nodes - 1]);
        lines(&all)
    };
    let empty = ["elca,0,0,", "slca,0,0,", "valid,0,0,"];
    prints(&table(256), &empty);
    input_at(258, &table(257));
    input_at(258, &table(300));
    input_at(258, &[table(256), b"\r\n".to_vec()].concat());
    input_at(258, &[table(256), b"garbage".to_vec()].concat());
    // Length first, whatever the lines say; then the first line that breaks.
    let garbage = |bytes: usize| vec![b'x'; bytes];
    input_at(0, &garbage(16_385));
    input_at(1, &garbage(16_384));
    let long_table = table(3_000);
    assert!(long_table.len() > 16_385);
    input_at(0, &long_table);
    input_at(0, &long_table[..16_385]);
    input_at(258, &long_table[..16_384]);
}
