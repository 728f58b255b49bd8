//! --sheet: the sheet files.
use crate::run::{Folder, EXAMPLES};
use shuttlemint::{Class, Integral, Sheet};

fn sheet(folder: &Folder, name: &str) -> Sheet {
    Sheet::from_bytes(std::fs::read(folder.path(name)).unwrap()).unwrap()
}

#[test]
fn one_sheet() {
    let folder = Folder::new().with("a.csv", "name,function,n,m\nx,ellipe,,1\ny,ellippi,1,0.5\n").with("month.sheet", "old");
    let ran = folder.legs(&["--axis", "1", "a.csv", "--sheet", "month.sheet"]);
    assert_eq!(ran.status, 1);
    assert_eq!(folder.names(), ["a.csv", "month.sheet"]);
    let mut expected = Sheet::blank(2).unwrap();
    expected.enter(0, Integral::ellipe(1.0)).unwrap();
    expected.enter(1, Integral::ellippi(1.0, 0.5)).unwrap();
    assert!(sheet(&folder, "month.sheet") == expected);

    // The worked example: two rows a leg.
    assert_eq!(folder.legs(&["--sheet=month.sheet", &format!("{EXAMPLES}/legs.csv")]).status, 0);
    let written = sheet(&folder, "month.sheet");
    assert_eq!((written.rows(), written.count(Class::Finite)), (12, 12));
    assert_eq!(format!("{:.3}", 6356752.314245179 * written.total()), "14866631.109");
    // No leg: a sheet without rows.
    assert_eq!(folder.with("none.csv", "from,to\n").legs(&["--sheet", "none.sheet", "none.csv"]).status, 0);
}

#[test]
fn many_sheets() {
    let text: String = "phi,m\n".to_string() + &(0..2500).map(|k| format!("{k},0\n")).collect::<String>();
    let folder = Folder::new().with("a.csv", text);
    assert_eq!(folder.legs(&["--sheet", "month.sheet", "a.csv"]).status, 0);
    assert_eq!(folder.names(), ["a.csv", "month.sheet.1", "month.sheet.2", "month.sheet.3"]);
    let sheets = ["month.sheet.1", "month.sheet.2", "month.sheet.3"].map(|name| sheet(&folder, name));
    assert_eq!(sheets.each_ref().map(|sheet| sheet.rows()), [1024, 1024, 452]);
    assert_eq!(sheets[2].row(451).unwrap().values().unwrap()[0], 2499.0);
    assert_eq!(sheets.iter().map(|sheet| sheet.total()).sum::<f64>(), 2499.0 * 1250.0);
    // Again: the same names are replaced.
    assert_eq!(folder.legs(&["--sheet", "month.sheet", "a.csv"]).status, 0);
    assert_eq!(folder.names().len(), 4);

    // Fewer sheets than there were, or one alone: what is left over would pass for a part.
    for (legs, left) in [(1100, "month.sheet.3"), (5, "month.sheet.1")] {
        let text: String = "phi,m\n".to_string() + &"1,0\n".repeat(legs);
        let ran = folder.legs_on(&["--sheet", "month.sheet"], text.as_bytes());
        assert_eq!((ran.status, ran.out.as_str()), (2, ""));
        assert_eq!(ran.err, format!("legs: {left} is there from another run and would pass for a part of this one; move it away\n"));
        assert_eq!(folder.names().len(), 4);
    }
    let folder = Folder::new().with("month.sheet", "old");
    let ran = folder.legs_on(&["--sheet", "month.sheet"], ("phi,m\n".to_string() + &"1,0\n".repeat(1025)).as_bytes());
    assert_eq!((ran.status, std::fs::read(folder.path("month.sheet")).unwrap()), (2, b"old".to_vec()));
}

#[test]
fn sheets_that_cannot_be_written() {
    let folder = Folder::new().with("a.csv", "from,to\n1,2\n");
    std::fs::create_dir(folder.path("folder")).unwrap();
    for (name, says) in [
        ("folder", "cannot write folder: "),
        ("missing/month.sheet", "cannot write missing/month.sheet: "),
        ("a.csv", "a.csv is a file of legs; let --sheet name another"),
        ("./folder/../a.csv", "./folder/../a.csv is a file of legs; let --sheet name another"),
    ] {
        let ran = folder.legs(&["--sheet", name, "a.csv"]);
        assert_eq!((ran.status, ran.out.as_str()), (2, ""), "{name}");
        assert!(ran.err.starts_with(&format!("legs: {says}")), "{}", ran.err);
        assert_eq!(folder.names(), ["a.csv", "folder"]);
    }
    assert_eq!(std::fs::read(folder.path("a.csv")).unwrap(), b"from,to\n1,2\n");
}
