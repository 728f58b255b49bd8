//! Input and command lines that do not read: status 2, nothing printed, no file written, and words that name file, line, column and what to do.
use crate::run::{on, Folder};

/// A run on this file, with a sheet asked for.
fn fails(text: impl AsRef<[u8]>, says: &str) {
    let folder = Folder::new().with("month.csv", text);
    let ran = folder.legs(&["--sheet", "month.sheet", "month.csv"]);
    assert_eq!((ran.status, ran.out.as_str()), (2, ""), "{}", ran.err);
    assert_eq!(ran.err, format!("legs: month.csv: {says}\n"));
    assert_eq!(folder.names(), ["month.csv"]);
}

#[test]
fn files() {
    fails("", "this is empty; the first line must name the columns, as in name,from,to");
    fails("\n\r\n", "this is empty; the first line must name the columns, as in name,from,to");
    fails("\u{feff}", "this is empty; the first line must name the columns, as in name,from,to");
    fails(b"\xff\xfen\0", "this is UTF-16; save it as CSV in UTF-8");
    fails("leg\n", "line 1, column 1 (leg): legs knows no such column (name, from, to, phi, n, m, function, times); mend the title, take the column out, or give --ignore-unknown");
    fails("name,from,to,form\n", "line 1, column 4 (form): legs knows no such column (name, from, to, phi, n, m, function, times); mend the title, take the column out, or give --ignore-unknown");
    fails(
        "from,to,times\n1,2,65536\n",
        "line 2, column 3 (times): \"65536\" is no number of times; write a whole one from 0 to 65535, and what is beyond that in another line",
    );
    fails("from,to,phi,m\n1,2,,\n", "line 1: from, to and other arguments stand in one header; keep one kind, or make two files");
    fails("name,from\nx,1\n", "line 1: the column to is missing; a leg has from and to");
}

#[test]
fn lines() {
    fails("name,from,to\nx,1,91\n", "line 2, column 3 (to): 91.0 is no latitude; it lies between -90 and 90 degrees");
    fails(
        "name,from,to\r\n\r\nx,1,2\r\nx,1,2.5N\r\n",
        "line 4, column 3 (to): \"2.5N\" is no decimal number; write one such as -34.36, in degrees, south below zero",
    );
    fails(
        "name,from,to\n\"two\nlines\",1,2\nx,,2\n",
        "line 4, column 2 (from): nothing is written here; write a number such as -34.36, in degrees, south below zero",
    );
    fails("from,to\n1,2,3\n", "line 2: this line has 3 fields and the header 2; make them as many");
    fails("from,to\n\"1,2\n", "line 2, column 1: a quote is opened here and not closed; close it, or write two for a quote");
    fails(
        "function,m\nellipx,1\n",
        "line 2, column 1 (function): \"ellipx\" is no function; write ellipe, ellipke, ellippi, ellipeinc or ellipf",
    );
    fails(
        "function,m\nellipke,1\nellipk,1\n",
        "line 3, column 1 (function): ellipk goes out, and no sheet takes a new row of it; write ellipke, whose first answer is K(m) too",
    );
    fails("function,m\nellipf,1\n", "line 2: phi is needed here, and the header has no such column; add it");
}

#[test]
fn all_of_them_are_told_up_to_twenty() {
    let folder = Folder::new().with("a.csv", "from,to\n1,x\n1,2\n1,95\n").with("b.csv", "from,to\n0,90\n").with("c.csv", "phi\n");
    let ran = folder.legs(&["a.csv", "b.csv", "c.csv"]);
    let said: Vec<&str> = ran.err.lines().collect();
    assert_eq!((ran.status, ran.out.as_str(), said.len()), (2, "", 3));
    assert!(said[0].starts_with("legs: a.csv: line 2, column 2 (to)"));
    assert!(said[1].starts_with("legs: a.csv: line 4, column 2 (to)"));
    assert!(said[2].starts_with("legs: c.csv: line 1: the column m is missing"));

    let ran = on(&[], format!("from,to\n{}", "1,x\n".repeat(5000)));
    let said: Vec<&str> = ran.err.lines().collect();
    assert_eq!((ran.status, said.len(), said[20]), (2, 21, "legs: and 4980 more of this kind"));
    assert!(said[0].starts_with("legs: standard input: line 2, column 2 (to): \"x\""));
}

#[test]
fn files_that_cannot_be_read() {
    let folder = Folder::new().with("good.csv", "from,to\n1,2\n");
    for (words, begins) in [
        (&["missing.csv"][..], "legs: cannot read missing.csv: "),
        (&["good.csv", "missing.csv"], "legs: cannot read missing.csv: "),
        (&["."], "legs: cannot read .: "),
    ] {
        let ran = folder.legs(words);
        assert_eq!((ran.status, ran.out.as_str()), (2, ""));
        assert!(ran.err.starts_with(begins), "{}", ran.err);
    }
}

#[test]
fn command_lines() {
    let folder = Folder::new().with("arcs.csv", "phi,m\n1,0\n").with("legs.csv", "from,to\n1,2\n");
    for (words, says) in [
        (&["--cvs", "legs.csv"][..], "there is no option --cvs; try 'legs --help'"),
        (&["-x"], "there is no option -x; try 'legs --help'"),
        (&["legs.csv", "--sheet"], "--sheet needs a value behind it; try 'legs --help'"),
        (&["--sheet=", "legs.csv"], "--sheet needs a file's name; try 'legs --help'"),
        (&["--csv=yes", "legs.csv"], "--csv takes no value; try 'legs --help'"),
        (&["--axis", "long", "arcs.csv"], "--axis long: write metres above 0, such as 6356752.314245179; try 'legs --help'"),
        (&["--axis", "-1", "arcs.csv"], "--axis -1: write metres above 0, such as 6356752.314245179; try 'legs --help'"),
        (&["--axis", "0", "arcs.csv"], "--axis 0: write metres above 0, such as 6356752.314245179; try 'legs --help'"),
        (&["--axis", "inf", "arcs.csv"], "--axis inf: write metres above 0, such as 6356752.314245179; try 'legs --help'"),
        (&["--axis", "nan", "arcs.csv"], "--axis nan: write metres above 0, such as 6356752.314245179; try 'legs --help'"),
        (&["--separator", "::", "arcs.csv"], "--separator ::: write one sign such as ; or the word tab; try 'legs --help'"),
        (&["--separator", "5", "arcs.csv"], "--separator 5: write one sign such as ; or the word tab; try 'legs --help'"),
        (
            &["--axis", "1", "arcs.csv", "legs.csv"],
            "legs.csv: from and to are latitudes on WGS84, whose half axis is known; leave --axis out",
        ),
    ] {
        let ran = folder.legs(words);
        assert_eq!((ran.status, ran.out.as_str()), (2, ""), "{words:?}");
        assert_eq!(ran.err, format!("legs: {says}\n"), "{words:?}");
    }
}
