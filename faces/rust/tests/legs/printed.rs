//! What is printed of input that reads.
use crate::run::{fields, lengths, on, Folder, EXAMPLES};
use shuttlemint::{integrals, Refusal, Sheet};

const TABLE: &str = "   10001965.729 m  equator to pole
    2822111.167 m  Struve's arc, the Danube's mouth to Hammerfest
    1075981.718 m  Delambre and Mechain's arc, Barcelona to Dunkirk
     344995.033 m  the arc of Peru, Tarqui to Cotchesqui
     108166.640 m  the arc of Lapland, Tornio to Kittisvaara
     513410.822 m  Maclear's arc at the Cape
   14866631.109 m  in all, exactly added and rounded once: 14866631.108871197
legs: 6, of which 0 without a length
rows: 0 blank, 12 finite, 0 +inf, 0 -inf, 0 refused, in 1 sheet
";

fn example() -> String {
    std::fs::read_to_string(format!("{EXAMPLES}/legs.csv")).unwrap()
}

#[test]
fn the_worked_example() {
    let ran = Folder::new().legs(&[&format!("{EXAMPLES}/legs.csv")]);
    assert_eq!((ran.status, ran.out.as_str(), ran.err.as_str()), (0, TABLE, ""));
    assert_eq!(on(&[], example()).out, TABLE);
    assert_eq!(on(&["-"], example()).out, TABLE);
    // docs/LEGS.md shows the same.
    let page = std::fs::read_to_string(format!("{EXAMPLES}/../docs/LEGS.md")).unwrap();
    assert!(page.contains(TABLE), "docs/LEGS.md shows another table");
}

/// examples/legs.csv is made from examples/legs.txt: from, to and the rest of the line, which is the name.
#[test]
fn the_example_s_legs_are_those_of_the_text() {
    let text = std::fs::read_to_string(format!("{EXAMPLES}/legs.txt")).unwrap();
    let mut made = String::from("name,from,to\n");
    for line in text.lines().filter(|line| !line.starts_with('#')) {
        let words: Vec<&str> = line.splitn(3, ' ').collect();
        let name = if words[2].contains(',') { format!("\"{}\"", words[2]) } else { words[2].to_string() };
        made += &format!("{name},{},{}\n", words[0], words[1]);
    }
    assert_eq!(made, example());
}

#[test]
fn other_spellings_of_the_same_file() {
    let plain = example();
    let semicolons: String = plain
        .lines()
        .map(|line| {
            let (name, numbers) =
                line.rsplit_once(',').and_then(|(rest, to)| rest.rsplit_once(',').map(|(name, from)| (name, [from, to]))).unwrap();
            format!("{name};{};{}\n", numbers[0], numbers[1])
        })
        .collect();
    for (words, text) in [
        (&[][..], plain.replace('\n', "\r\n")),
        (&[][..], format!("\u{feff}{plain}")),
        (&[][..], format!("\u{feff}{}", plain.replace('\n', "\r\n"))),
        (&[][..], plain.trim_end().to_string()),
        (&[][..], plain.replace("name,from,to", "Name, From , TO")),
        (&["--separator", ";"][..], semicolons.clone()),
        (&["--separator=tab"][..], semicolons.replace(';', "\t")),
    ] {
        let ran = on(words, &text);
        assert_eq!((ran.status, ran.out.as_str()), (0, TABLE), "{text} {}", ran.err);
    }
    let extra: String = plain.lines().map(|line| format!("{line},x\n")).collect();
    assert_eq!(on(&["--ignore-unknown"], extra.replacen(",x", ",driver", 1)).out, TABLE);
}

#[test]
fn csv_reads_back_to_the_same_bits() {
    let ran = on(&["--csv"], "name,from,to\na,45.33,70.67\nb,-3.08,0.04\nback,0.04,-3.08\nnone,12.5,12.5\n");
    assert_eq!(ran.status, 0);
    let lines: Vec<&str> = ran.out.lines().collect();
    assert_eq!(lines[0], "what,file,line,name,metres,count,refusal,why,times");
    assert_eq!(lines[1], "leg,-,2,a,2822111.167234795,,,,1");
    assert_eq!(lines[4], "leg,-,5,none,0.0,,,,1");
    assert_eq!(
        lines[5..10],
        ["count,,,blank,,0,,,", "count,,,finite,,8,,,", "count,,,+inf,,0,,,", "count,,,-inf,,0,,,", "count,,,refused,,0,,,"]
    );
    assert!(lines[10].starts_with("total,,,,") && lines.len() == 11);
    let (legs, total) = lengths(&ran);
    // A leg is as long one way as the other, and the total is the sum.
    assert_eq!(legs[1], legs[2]);
    assert!((total - legs.iter().sum::<f64>()).abs() < 1e-8);
    for (text, value) in lines[1..5].iter().map(|line| fields(line)[4]).zip(&legs) {
        assert_eq!(format!("{value:?}"), text);
    }
}

#[test]
fn arcs_and_functions() {
    let ran = on(&["--csv", "--axis", "1"], "phi,m\n1.25,0.5\n-1.25,0.5\n2,0\n");
    let arc = integrals::ellipeinc(1.25, 0.5).unwrap();
    assert_eq!((ran.status, lengths(&ran)), (0, (vec![arc, -arc, 2.0], 2.0)));

    let text = "function,phi,n,m\nellipe,,,0.5\nellipke,,,0.5\nellippi,,0.25,0.5\nellipeinc,0.75,,0.5\nellipf,0.75,,0.5\n";
    let ran = on(&["--csv", "--axis=2"], text);
    let expected = [
        integrals::ellipe(0.5),
        integrals::ellipke(0.5).map(|(k, _)| k),
        integrals::ellippi(0.25, 0.5),
        integrals::ellipeinc(0.75, 0.5),
        integrals::ellipf(0.75, 0.5),
    ];
    assert_eq!((ran.status, lengths(&ran).0), (0, expected.map(|answer| 2.0 * answer.unwrap()).to_vec()));

    // Without --axis it is WGS84's: the quarter of its meridian.
    let ran = on(&["--csv"], "phi,m\n1.5707963267948966,-0.006739496742276434\n");
    assert_eq!(lengths(&ran).0, [10001965.72931272]);
}

#[test]
fn refused_and_infinite_legs_are_shown() {
    let text =
        "name,function,phi,n,m\nfine,ellipe,,,1\npole,ellippi,,1,0.5\nlong,ellipke,,,1\n\"down, far\",ellippi,,2,1\nnone,ellipke,,,nan\n";
    let ran = on(&["--axis", "1"], text);
    assert_eq!(ran.status, 1);
    let one = Refusal::CHARACTERISTIC_ONE;
    let expected = format!(
        "{:>15} m  fine
{:>15}    pole: {one}
{:>15} m  long: the answer is infinite, and in no total
{:>15} m  down, far: the answer is infinite, and in no total
{:>15}    none: {}
{:>15} m  in all, exactly added and rounded once: 1.0
legs: 5, of which 4 without a length
rows: 0 blank, 1 finite, 1 +inf, 1 -inf, 2 refused, in 1 sheet
",
        "1.000",
        "refused",
        "inf",
        "-inf",
        "refused",
        Refusal::NAN_ARGUMENT,
        "1.000"
    );
    assert_eq!(ran.out, expected);
    assert!(one.to_string().starts_with("refusal 4: n is 1"));

    let ran = on(&["--axis", "1", "--csv"], text);
    assert_eq!(ran.status, 1);
    let lines: Vec<&str> = ran.out.lines().collect();
    assert_eq!(lines[2], format!("leg,-,3,pole,,,4,\"{}\",1", one.message()));
    assert_eq!(lines[3], "leg,-,4,long,inf,,,\"the answer is infinite, and in no total\",1");
    assert_eq!(lines[4], "leg,-,5,\"down, far\",-inf,,,\"the answer is infinite, and in no total\",1");
    assert_eq!(lines[10], "count,,,refused,,2,,,");
    assert_eq!(lines[11], "total,,,,1.0,,,,");
    // An infinite leg alone has no length either.
    assert_eq!(on(&[], "function,m\nellipke,1\n").status, 1);
}

#[test]
fn legs_driven_several_times() {
    let driven = std::fs::read_to_string(format!("{EXAMPLES}/driven.csv")).unwrap();
    let ran = on(&[], &driven);
    let page = std::fs::read_to_string(format!("{EXAMPLES}/../docs/LEGS.md")).unwrap();
    assert!(ran.status == 0 && page.contains(&ran.out), "docs/LEGS.md shows another table than\n{}", ran.out);
    // A leg so often is as good as so many lines of it.
    let (mut singly, mut times) = (String::from("name,from,to\n"), vec![]);
    for line in driven.lines().skip(1) {
        let (leg, often) = line.rsplit_once(',').unwrap();
        times.push(often.parse::<usize>().unwrap());
        singly += &format!("{leg}\n").repeat(times[times.len() - 1]);
    }
    let csv = on(&["--csv"], &driven);
    assert!(times.contains(&0) && times.iter().any(|&often| often > 1));
    assert_eq!(lengths(&csv).1.to_bits(), lengths(&on(&["--csv"], singly)).1.to_bits());
    let shown: Vec<&str> = csv.out.lines().skip(1).take(times.len()).map(|line| line.rsplit_once(',').unwrap().1).collect();
    assert_eq!(shown, times.iter().map(usize::to_string).collect::<Vec<_>>());
    // A leg without a length is shown with its times too.
    let ran = on(&[], "name,function,n,m,times\npole,ellippi,1,0.5,3\n");
    assert!(ran.out.starts_with("        refused    pole, driven 3 times: refusal 4"), "{}", ran.out);
    // The sheet keeps them.
    let folder = Folder::new().with("a.csv", "from,to,times\n0,90,7\n");
    assert_eq!(folder.legs(&["--sheet", "month.sheet", "a.csv"]).status, 0);
    let sheet = Sheet::from_bytes(std::fs::read(folder.path("month.sheet")).unwrap()).unwrap();
    assert_eq!(sheet.iter().map(|row| row.times()).collect::<Vec<_>>(), [7, 7]);
}

#[test]
fn several_files_of_several_kinds() {
    let folder =
        Folder::new().with("a.csv", "name,from,to\nall,0,90\n").with("b.csv", "phi,m\n0,0.5\n1,0\n").with("c.csv", "to,from\n1,0\n");
    let ran = folder.legs_on(&["a.csv", "b.csv", "-"], b"name,from,to\nx,1,2\n");
    assert_eq!(ran.status, 0);
    let names: Vec<&str> = ran.out.lines().map(|line| line.split(" m  ").nth(1).unwrap_or("")).collect();
    assert_eq!(names[..4], ["all", "b.csv, line 2", "b.csv, line 3", "x"]);
    let ran = folder.legs(&["--csv", "c.csv", "b.csv", "c.csv"]);
    let places: Vec<Vec<&str>> = ran.out.lines().skip(1).take(4).map(|line| fields(line)[1..3].to_vec()).collect();
    assert_eq!(places, [["c.csv", "2"], ["b.csv", "2"], ["b.csv", "3"], ["c.csv", "2"]]);
    // The same legs in another order come to the same.
    let again = folder.legs(&["--csv", "b.csv", "c.csv", "c.csv"]);
    assert_eq!(lengths(&ran).1, lengths(&again).1);
    assert_eq!(folder.legs(&["a.csv"]).out.lines().next(), Some("   10001965.729 m  all"));
    assert_eq!(folder.legs(&["c.csv"]).out.lines().next(), Some("     110574.389 m  line 2"));
    // A file whose name looks like an option.
    let folder = folder.with("--csv", "phi,m\n1,0\n");
    assert_eq!(folder.legs(&["--axis", "1", "--", "--csv"]).out.lines().next(), Some("          1.000 m  line 2"));
}

#[test]
fn no_legs() {
    for text in ["name,from,to\n", "phi,m", "function,m\n\n"] {
        let ran = on(&[], text);
        assert_eq!((ran.status, ran.err.as_str()), (0, ""));
        assert_eq!(
            ran.out,
            "          0.000 m  in all, exactly added and rounded once: 0.0
legs: 0, of which 0 without a length
rows: 0 blank, 0 finite, 0 +inf, 0 -inf, 0 refused, in 1 sheet
"
        );
        assert_eq!(lengths(&on(&["--csv"], text)), (vec![], 0.0));
    }
}

#[test]
fn five_thousand_legs() {
    // 1e300 in the first sheet and -1e300 in the last: only an exact sum over all sheets keeps the ones between.
    let mut text = String::from("phi,m\n1e300,0\n");
    text += &"1,0\n".repeat(4998);
    text += "-1e300,0\n";
    let ran = on(&["--csv", "--axis", "1"], &text);
    assert_eq!((ran.status, lengths(&ran).0.len(), lengths(&ran).1), (0, 5000, 4998.0));
    assert!(ran.out.contains("count,,,finite,,5000,,,\n"));

    let legs: String = (0..5000).map(|k| format!("{},{}\n", k as f64 / 100.0, (k % 90) as f64)).collect();
    let ran = on(&[], format!("from,to\n{legs}"));
    assert_eq!(ran.status, 0);
    assert_eq!(ran.out.lines().count(), 5003);
    assert!(ran.out.ends_with("rows: 0 blank, 10000 finite, 0 +inf, 0 -inf, 0 refused, in 10 sheets\n"));
}

#[test]
fn names_on_a_terminal_and_in_csv() {
    let text = b"name,from,to\n\"two\nlines\",1,2\nD\xfcnkirchen,1,2\n\"say \"\"so\"\"\",1,2\n\x1b[31mred,1,2\n";
    let table = on(&[], text);
    let names: Vec<&str> = table.out.lines().take(4).map(|line| line.split(" m  ").nth(1).unwrap()).collect();
    assert_eq!(names, ["two?lines", "D\u{fffd}nkirchen", "say \"so\"", "?[31mred"]);
    let csv = on(&["--csv"], text).out;
    assert!(csv.contains(",\"two\nlines\",") && csv.contains(",\"say \"\"so\"\"\","));
}

#[test]
fn help_version_and_the_page() {
    let help = on(&["--help"], "");
    assert_eq!((help.status, help.err.as_str()), (0, ""));
    assert_eq!(on(&["-h"], ""), help);
    assert_eq!(on(&["--csv", "--help", "nowhere.csv"], ""), help);
    let version = on(&["--version"], "");
    assert_eq!((version.status, version.out.as_str()), (0, concat!("legs ", env!("CARGO_PKG_VERSION"), "\n")));
    assert_eq!(on(&["-V"], "").out, version.out);
    assert!(help.out.lines().all(|line| line.len() <= 80), "too wide for a terminal");

    // The manual page and docs/LEGS.md name every option and column that --help names.
    let page = std::fs::read_to_string(format!("{EXAMPLES}/../faces/man/legs.1")).unwrap().replace("\\-", "-");
    let doc = std::fs::read_to_string(format!("{EXAMPLES}/../docs/LEGS.md")).unwrap();
    let words = help.out.split(|c: char| c.is_whitespace() || c == ',').filter(|word| word.starts_with("--"));
    for word in words.chain(["name", "from", "phi", "function", "ellipeinc", "times", "arc tangent"]) {
        assert!(page.contains(word), "faces/man/legs.1 does not name {word}");
        assert!(doc.contains(word), "docs/LEGS.md does not name {word}");
    }
    assert!(page.contains(env!("CARGO_PKG_VERSION")), "faces/man/legs.1 is of another version");
}

#[test]
fn output_that_is_not_taken() {
    use std::process::{Command, Stdio};
    let run = |out: Stdio| {
        let mut command = Command::new(env!("CARGO_BIN_EXE_legs"));
        command.arg(format!("{EXAMPLES}/legs.csv")).stdout(out).stderr(Stdio::piped()).output().unwrap()
    };
    let full = run(std::fs::OpenOptions::new().write(true).open("/dev/full").unwrap().into());
    assert_eq!(full.status.code(), Some(2));
    assert!(String::from_utf8_lossy(&full.stderr).starts_with("legs: cannot write standard output"));
    // A pipe whose reader has gone: it ends without a word.
    let mut gone = Command::new("true").stdin(Stdio::piped()).spawn().unwrap();
    let pipe = gone.stdin.take().unwrap();
    gone.wait().unwrap();
    let cut = run(pipe.into());
    assert_eq!((cut.status.code(), cut.stderr.as_slice()), (Some(2), &b""[..]));
}
