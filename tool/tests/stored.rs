//! What the program prints, held to stored outputs: every refusal, and the example sheets.

mod common;

use common::{folder, here, name, run, scratch, sheets, stored, told, told_from};

/// Every refusal of a sheet and of its run is told in words on standard error, with exit status 1.
#[test]
fn refusals() {
    let mut numbers = std::collections::BTreeSet::new();
    for sheet in sheets(&here().join("tests/refused")) {
        let (status, out, err) = told(&["check".as_ref(), sheet.as_os_str()]);
        assert_eq!((status, out.as_str()), (1, ""), "{}", sheet.display());
        let number = name(&sheet).split('_').next().unwrap().to_string();
        assert!(err.starts_with(&format!("refused {number}: ")), "{}: {err}", sheet.display());
        stored(&sheet.with_extension("told"), &err);
        numbers.insert(number);
    }
    assert_eq!(numbers.into_iter().collect::<Vec<_>>(), ["11", "12", "13", "14", "15", "16", "17", "18", "30"]);
}

#[test]
fn a_sheet_that_is_too_long() {
    let file = scratch("too_long").join("10_long.sheet");
    std::fs::write(&file, "fluent\topen\n".repeat(6_000)).unwrap();
    let (status, out, err) = told(&["ends".as_ref(), file.as_os_str()]);
    assert_eq!((status, out.as_str()), (1, ""));
    assert!(err.starts_with("refused 10: the sheet has 72,000 bytes\n"), "{err}");
    let drawn = run(&["page".as_ref(), file.as_os_str(), "-o".as_ref(), "-".as_ref()]).stdout;
    let drawn = String::from_utf8(drawn).unwrap();
    assert!(drawn.contains("the sheet has 72,000 bytes") && !drawn.contains("SHA-256"));
    let (status, _, err) = told_from(&["write", "-"], std::fs::File::open(&file).unwrap());
    assert_eq!(status, 1);
    assert!(err.starts_with("refused 10: the sheet has more than 65,536 bytes\n"), "{err}");
}

/// Of a file without bound only the beginning is read: one without an end is refused like any that is too long.
#[test]
fn a_sheet_without_end() {
    if !std::path::Path::new("/dev/zero").exists() {
        return;
    }
    let (status, out, err) = told(&["ends", "/dev/zero"]);
    assert_eq!((status, out.as_str()), (1, ""));
    assert!(err.starts_with("refused 10: the sheet has more than 65,536 bytes\n"), "{err}");
}

/// A sheet is not overwritten by its own page or text, by whatever path it is named.
#[test]
fn no_sheet_is_overwritten() {
    let place = scratch("overwritten");
    let sheet = place.join("low_water.sheet");
    std::fs::copy(folder("sheets/low_water.sheet"), &sheet).unwrap();
    let before = std::fs::read(&sheet).unwrap();
    std::fs::create_dir(place.join("in")).unwrap();
    for (command, to) in [("page", sheet.clone()), ("write", sheet.clone()), ("write", place.join("in/../low_water.sheet"))] {
        let (status, out, err) = told(&[command.as_ref(), sheet.as_os_str(), "-o".as_ref(), to.as_os_str()]);
        assert_eq!((status, out.as_str()), (2, ""), "{command}");
        assert!(err.contains("is the sheet itself, and would be overwritten"), "{err}");
        assert_eq!(std::fs::read(&sheet).unwrap(), before, "{command}");
    }
    let refused = place.join("refused.sheet");
    std::fs::write(&refused, "no sheet\n").unwrap();
    assert_eq!(told(&["page".as_ref(), refused.as_os_str(), "-o".as_ref(), refused.as_os_str()]).0, 2);
    assert_eq!(std::fs::read(&refused).unwrap(), b"no sheet\n");
}

/// Where standard error takes nothing, the exit status is the same.
#[test]
fn a_full_standard_error() {
    let Ok(full) = std::fs::File::options().write(true).open("/dev/full") else { return };
    let refused = here().join("tests/refused/16_typo.sheet");
    let low_water = folder("sheets/low_water.sheet");
    let cases: [(&[&std::ffi::OsStr], i32); 4] = [
        (&["ends".as_ref(), refused.as_os_str()], 1),
        (&["write".as_ref(), refused.as_os_str()], 1),
        (&["no_command".as_ref()], 2),
        (&["path".as_ref(), low_water.as_os_str(), "--most".as_ref(), "1".as_ref()], 0),
    ];
    for (words, status) in cases {
        let mut command = std::process::Command::new(env!("CARGO_BIN_EXE_lawhemuri"));
        let output = command.args(words).stderr(full.try_clone().unwrap()).output().unwrap();
        assert_eq!(output.status.code(), Some(status), "{words:?}");
    }
}

/// A question that no end answers has a result: the sentence that says so, and a page without ways.
#[test]
fn no_end_is_so() {
    let place = scratch("none_so");
    let (sheet, page) = (folder("sheets/light_up.sheet"), place.join("page.html"));
    let (sheet, page) = (sheet.to_str().unwrap(), page.to_str().unwrap());
    let question = ["--with", "main_valve", "--without", "main_flame"];
    let sentence = "light_up: no end with main_valve, without main_flame\n";
    assert_eq!(told(&[&["path", sheet], &question[..]].concat()), (0, sentence.into(), String::new()));
    let (status, out, err) = told(&[&["page", sheet, "-o", page], &question[..]].concat());
    assert_eq!((status, err.as_str()), (0, ""));
    assert!(out.starts_with(sentence) && out.contains("page.html: "), "{out}");
    let drawn = std::fs::read_to_string(page).unwrap();
    assert!(drawn.contains("Ways are drawn to none of the ") && !drawn.contains("<section class=\"end\""));
    let (status, out, err) = told(&[&["page", sheet, "-o", "-"], &question[..]].concat());
    assert_eq!((status, out, err.as_str()), (0, drawn, sentence));
    let no_end = here().join("tests/sheets/no_end.sheet");
    let fluent = told(&["ends".as_ref(), no_end.as_os_str(), "--json".as_ref()]).1;
    let fluent = fluent.split("\"fluents\":[\"").nth(1).unwrap().split('"').next().unwrap();
    let (status, out, _) = told(&["path".as_ref(), no_end.as_os_str(), "--with".as_ref(), fluent.as_ref()]);
    assert!(status == 0 && out.starts_with("no_end: no end: the procedure can never be finished"), "{out}");
}

/// The last state of a part of a way is not marked as an end; that of a whole way is.
#[test]
fn a_part_has_no_end() {
    let part = here().join("tests/sheets/too_long.sheet");
    let whole = folder("sheets/example.sheet");
    for (sheet, marked) in [(part, false), (whole, true)] {
        let (status, out, _) = told(&["path".as_ref(), sheet.as_os_str(), "1".as_ref(), "--all".as_ref()]);
        let bands: Vec<&str> = out.lines().filter(|line| line.contains('▔') || line.contains('▁')).collect();
        assert!(status == 0 && !bands.is_empty());
        assert_eq!(bands.iter().any(|line| line.ends_with('●') || line.ends_with('·')), marked, "{}", sheet.display());
        let drawn = run(&["page".as_ref(), sheet.as_os_str(), "-o".as_ref(), "-".as_ref()]).stdout;
        let drawn = String::from_utf8(drawn).unwrap();
        for mark in ["class=\"state last\"", "class=\"endcol\""] {
            assert_eq!(drawn.contains(mark), marked, "{}: {mark}", sheet.display());
        }
    }
}

/// Every command refuses a refused sheet with the same words.
#[test]
fn every_command_refuses() {
    let sheet = here().join("tests/refused/16_typo.sheet");
    let page = scratch("refused").join("refused.html");
    for command in ["ends", "path", "check", "write", "archive", "class", "report"] {
        let (status, out, err) = told(&[command.as_ref(), sheet.as_os_str()]);
        assert_eq!((status, out.as_str()), (1, ""));
        assert!(err.contains("did you mean `?open`?"), "{err}");
    }
    let (status, out, err) = told(&["page".as_ref(), sheet.as_os_str(), "-o".as_ref(), page.as_os_str()]);
    assert_eq!((status, out.as_str()), (1, ""));
    assert!(err.contains("did you mean `?open`?") && err.contains("refused.html shows this to the class"), "{err}");
    let drawn = std::fs::read_to_string(page).unwrap();
    assert!(drawn.contains("Refused, no. 16, line 6: no fluent <code>opne</code>"));
    assert!(!drawn.contains("<script"));
}

/// Document 01's format: what the program `ends` prints, wherever its smaller rooms do.
#[test]
fn ends_as_the_program_ends_prints_them() {
    let mut same = 0;
    for sheet in sheets(&folder("sheets")).into_iter().chain(sheets(&folder("sheets/drills"))) {
        let kept = std::fs::read_to_string(sheet.with_extension("ends")).unwrap();
        let (status, out, err) = told(&["ends".as_ref(), sheet.as_os_str()]);
        if let Some(refused) = kept.strip_prefix("refused\t") {
            let number = refused.split('\t').next().unwrap();
            let larger = number == "30" && status == 0;
            assert!(larger || err.starts_with(&format!("refused {number}: ")), "{}: {err}", sheet.display());
            continue;
        }
        assert_eq!((status, out), (0, kept), "{}", sheet.display());
        same += 1;
    }
    assert!(same >= 12);
}

#[test]
fn sheets_checked_and_ways_printed() {
    for sheet in sheets(&folder("sheets")).into_iter().chain(sheets(&here().join("tests/sheets"))) {
        let keep = |what: &str| here().join("tests/stored").join(format!("{}.{what}", name(&sheet)));
        let (status, out, err) = told(&["check".as_ref(), sheet.as_os_str()]);
        assert_eq!((status, err.as_str()), (0, ""), "{}", sheet.display());
        stored(&keep("check"), &out);
        let (status, out, err) = told(&["path".as_ref(), sheet.as_os_str(), "--most".as_ref(), "6".as_ref()]);
        assert_eq!(status, 0, "{}", sheet.display());
        stored(&keep("path"), &format!("{out}{err}"));
    }
}

#[test]
fn ends_as_json() {
    let (status, out, _) = told(&["ends".as_ref(), folder("sheets/low_water.sheet").as_os_str(), "--json".as_ref()]);
    assert_eq!(status, 0);
    stored(&here().join("tests/stored/low_water.json"), &out);
}

#[test]
fn many_ends() {
    let boilers = here().join("tests/sheets/four_boilers.sheet");
    let (_, out, _) = told(&["ends".as_ref(), boilers.as_os_str()]);
    assert!(out.starts_with("ends\t256\t"), "{out}");
    assert_eq!(out.lines().count(), 257);
    let switches = here().join("tests/sheets/switches_14.sheet");
    let (status, out, _) = told(&["ends".as_ref(), switches.as_os_str()]);
    assert!(status == 0 && out.starts_with("ends\t16384\t2\t32768\n") && out.lines().count() == 16_385);
    let asked = ["--with", "switch_1", "--without", "switch_2"];
    let (status, out, err) = told(&[&["ends", switches.to_str().unwrap()], &asked[..]].concat());
    assert_eq!((status, out.lines().count()), (0, 4_097));
    assert_eq!(err, "lawhemuri: with switch_1, without switch_2: 4,096 of 16,384 ends\n");
    let (_, _, err) = told(&["path".as_ref(), switches.as_os_str()]);
    assert_eq!(err, "lawhemuri: ways to 16 of 16,384 ends: 16,368 left out (--most N shows more)\n");
}

#[test]
fn one_end_by_number_or_by_names() {
    let sheet = folder("sheets/low_water.sheet");
    let path = |end: &str| told(&["path".as_ref(), sheet.as_os_str(), end.as_ref()]);
    let third = path("3");
    assert!(third.0 == 0 && third.1.starts_with("low_water, end 3: the only end with pilot_valve\n"));
    assert_eq!(path("pilot_valve"), third);
    assert_eq!(path("locked_out,pilot_flame"), third);
    let wrong = |end: &str, said: &str| assert_eq!(path(end), (2, String::new(), format!("lawhemuri: {said}\n")));
    wrong("7", "no end 7: low_water has ends 1 to 3");
    wrong("0", "no end 0: low_water has ends 1 to 3");
    wrong("locked_out", "2 ends with locked_out: 2, 3");
    wrong("firing", "no end with firing: low_water has ends 1 to 3");
    wrong("pilot_vlave", "low_water.sheet has no fluent `pilot_vlave`; did you mean `pilot_valve`?");
}

#[test]
fn wrong_use_and_files_that_cannot_be_read() {
    let sheet = folder("sheets/low_water.sheet");
    let sheet = sheet.to_str().unwrap();
    let missing = folder("sheets/low_watre.sheet");
    let missing = missing.to_str().unwrap();
    let cases: [(&[&str], i32, &str); 16] = [
        (&[], 2, "a command is missing"),
        (&["end", sheet], 2, "no command `end`; did you mean `ends`?"),
        (&["ends"], 2, "ends needs a sheet"),
        (&["ends", sheet, sheet], 2, "one word too many"),
        (&["ends", sheet, "--wiht", "x"], 2, "ends has no option `--wiht`; did you mean `--with`?"),
        (&["ends", sheet, "--with"], 2, "--with needs NAME after it"),
        (&["ends", sheet, "--with", "pilot_vlave"], 2, "did you mean `pilot_valve`?"),
        (&["path", sheet, "--most", "none"], 2, "--most takes a number from 1 on, and not `none`"),
        (&["path", sheet, "3", "--with", "purged"], 2, "and not both"),
        (&["path", sheet, "3", "--most", "2"], 2, "give END, or --with, --without and --most, and not both"),
        (
            &["page", sheet, "-o", "-", "--ends", "3", "--most", "2"],
            2,
            "give --ends, or --with, --without and --most, and not both",
        ),
        (&["page", sheet, "-o", "-", "--ends", "3", "--with", "purged"], 2, "give --ends, or "),
        (&["page", sheet, "-o", "-", "--ends", "3", "--without", "purged"], 2, "give --ends, or "),
        (&["ends", missing], 1, "low_water.sheet?"),
        (&["ends", env!("CARGO_MANIFEST_DIR")], 1, "cannot be read"),
        (&["page", sheet, "-o", "/no/such/folder/page.html"], 1, "cannot be written"),
    ];
    for (words, status, said) in cases {
        let (code, out, err) = told(words);
        assert_eq!((code, out.as_str()), (status, ""), "{words:?}");
        assert!(err.starts_with("lawhemuri: ") && err.contains(said), "{words:?}: {err}");
    }
}

#[test]
fn help_and_version_on_each_command() {
    for words in [&["--help"][..], &["ends", "--help"], &["check", "--help"], &["path", "x", "--help"], &["page", "--help"]] {
        let (status, out, err) = told(words);
        assert!(status == 0 && out.starts_with("lawhemuri") && err.is_empty(), "{words:?}");
    }
    let (_, version, _) = told(&["--version"]);
    let number = env!("CARGO_PKG_VERSION");
    assert_eq!(version, format!("lawhemuri {number} (library {number})\n"));
    let header = std::fs::read_to_string(folder("include/lawhemuri.h")).unwrap();
    assert!(header.contains(&format!("#define LAWHEMURI_VERSION \"{number}\"\n")));
    for command in ["ends", "check", "path", "page", "write", "archive", "class", "report", "mark"] {
        assert_eq!(told(&[command, "--version"]), (0, version.clone(), String::new()));
        assert!(told(&["--help"]).1.contains(&format!("lawhemuri {command} SHEET")));
    }
}

/// A sheet with comments and CR LF: its lines are told as they stand, and it is written as its one fixed text.
#[test]
fn a_dressed_sheet() {
    let plain = std::fs::read_to_string(folder("sheets/low_water.sheet")).unwrap();
    let folder_of_copy = scratch("dressed");
    let (dressed, copy) = (folder_of_copy.join("low_water.sheet"), folder_of_copy.join("plain.sheet"));
    std::fs::write(&dressed, format!("# the late shift\r\n#\n{}# end\n", plain.replace('\n', "\r\n"))).unwrap();
    let way = |sheet: &std::path::Path| told(&["path".as_ref(), sheet.as_os_str(), "3".as_ref()]).1;
    let original = way(&folder("sheets/low_water.sheet"));
    let line_of = |text: &str| plain.lines().position(|line| line == text).unwrap() + 1;
    let rule = line_of("rule\ttrip\t?level_dry\t!shut_main\t+dry_trip\t+locked_out");
    assert!(original.contains(&rule.to_string()) && way(&dressed).contains(&(rule + 2).to_string()));
    assert_ne!(way(&dressed), original);
    let out = told(&["write".as_ref(), dressed.as_os_str()]);
    assert_eq!(out, told(&["write".as_ref(), folder("sheets/low_water.sheet").as_os_str()]));
    assert_eq!((out.0, out.2.as_str()), (0, ""));
    assert!(!out.1.contains('#') && !out.1.contains('\r'));
    let words = ["write".as_ref(), dressed.as_os_str(), "-o".as_ref(), copy.as_os_str()];
    assert_eq!(told(&words), (0, String::new(), String::new()));
    assert_eq!(std::fs::read_to_string(&copy).unwrap(), out.1);
    assert_eq!(told(&["write".as_ref(), copy.as_os_str()]).1, out.1);
}

/// The states on a way by valve: bit i of a fluent's word for state i.
#[test]
fn states_kept_by_valve() {
    let keystrokes = here().join("tests/sheets/keystrokes.sheet");
    let example = told(&["archive".as_ref(), folder("sheets/example.sheet").as_os_str()]);
    assert_eq!(example, (0, "states\t4\nfluents\topen\tlit\nwords\t6\t12\n".into(), String::new()));
    let (status, out, _) = told(&["archive".as_ref(), keystrokes.as_os_str(), "1".as_ref()]);
    assert_eq!(status, 0);
    stored(&here().join("tests/stored/keystrokes.archive"), &out);
    let (status, out, err) = told(&["archive".as_ref(), folder("sheets/low_water.sheet").as_os_str()]);
    assert_eq!((status, out.as_str(), err.as_str()), (2, "", "lawhemuri: which end? low_water has 3 ends\n"));
}

/// A whole class: a row for each start, as the library gives it; each as `ends` has it for a sheet with that start.
#[test]
fn a_whole_class() {
    let (sheet, starts) = (folder("sheets/light_up.sheet"), folder("sheets/light_up.starts"));
    let class = |option: &str| told(&["class".as_ref(), sheet.as_os_str(), starts.as_os_str(), option.as_ref()]);
    for (option, what) in [("--ends", "class"), ("--json", "class.json")] {
        let (status, out, err) = class(option);
        assert_eq!((status, err.as_str()), (0, ""));
        stored(&here().join("tests/stored").join(format!("light_up.{what}")), &out);
    }
    let with_ends = class("--ends").1;
    let (_, table, _) = told(&["class", sheet.to_str().unwrap(), starts.to_str().unwrap()]);
    let rows: String = with_ends.split_inclusive('\n').filter(|line| !line.trim_start().starts_with("end ")).collect();
    assert_eq!(table, rows);
    let (_, from_input, _) =
        told_from(&["class".as_ref(), sheet.as_os_str(), "-".as_ref()], std::fs::File::open(&starts).unwrap());
    assert_eq!(from_input, table);
    let text = std::fs::read_to_string(&sheet).unwrap();
    let other = scratch("class").join("other.sheet");
    let mut listed = 0;
    for line in std::fs::read_to_string(&starts).unwrap().lines().filter(|line| !line.starts_with('#')) {
        let (who, names) = line.split_once(":\t").unwrap();
        let start = format!("start\t{}", names.replace(' ', "\t"));
        let lines: Vec<&str> = text.lines().map(|line| if line.starts_with("start") { &start } else { line }).collect();
        std::fs::write(&other, lines.join("\n") + "\n").unwrap();
        let (_, single, _) = told(&["ends".as_ref(), other.as_os_str()]);
        let counts: Vec<&str> = single.lines().next().unwrap().split('\t').skip(1).collect();
        let row = table.lines().find(|line| line.starts_with(who)).unwrap();
        assert_eq!(row.split_whitespace().skip(1).take(3).collect::<Vec<_>>(), counts, "{who}");
        for end in single.lines().skip(1) {
            assert!(with_ends.contains(&format!(" end {}:", end.split('\t').nth(1).unwrap())), "{who}: {end}");
            listed += 1;
        }
    }
    assert!(table.contains(&format!("5 starts, {listed} ends\n")) && listed > 5, "{table}");
}

/// A start that no room serves is refused by itself; too many starts, bad lines and bad files are told.
#[test]
fn refused_starts_and_classes() {
    let sheet = here().join("tests/classes/gated.sheet");
    let (status, out, err) = told(&["class".as_ref(), sheet.as_os_str(), here().join("tests/classes/gated.starts").as_os_str()]);
    assert_eq!((status, err.as_str()), (0, ""));
    stored(&here().join("tests/stored/gated.class"), &out);
    let file = scratch("classes").join("class.starts");
    let class = |text: &str| {
        std::fs::write(&file, text).unwrap();
        told(&["class".as_ref(), sheet.as_os_str(), file.as_os_str()])
    };
    assert_eq!(class("").1, "gated: no start, no end\n");
    let most = class(&"start\tswitch_2\n".repeat(1024));
    assert!(most.0 == 0 && most.1.starts_with("gated: 1,024 starts, 1,024 ends\n"));
    let over = "lawhemuri: refused 25: 1,025 starts, of which 1,024 run in one go\n";
    assert_eq!(class(&"start\n".repeat(1025)), (1, String::new(), over.into()));
    assert_eq!(class("\u{feff}start\tkey\n").1.lines().next(), Some("gated: 1 start, no end"));
    for (text, said) in [
        ("start\nben: kye\n", "line 2: gated.sheet has no fluent `kye`; did you mean `key`?"),
        ("ben\n", "line 1: a line is"),
        ("start: key\n", "line 1: `start` is nobody's name: leave out the colon"),
        ("start key:switch_1\n", "line 1: `key:switch_1` is no name"),
        ("\u{1b}[2Jben: key\n", "line 1: the control character U+001B stands in it"),
    ] {
        let (status, out, err) = class(text);
        assert_eq!((status, out.as_str()), (2, ""));
        assert!(err.contains(said) && !err.contains('\u{1b}'), "{err}");
    }
    let sheet = sheet.to_str().unwrap();
    for (words, status, said) in [
        (&["class", sheet][..], 2, "class needs a file of starts"),
        (&["class", "-", "-"], 2, "cannot both be standard input"),
        (&["class", sheet, "/no/such/file"], 1, "/no/such/file cannot be read"),
    ] {
        let (code, out, err) = told(words);
        assert_eq!((code, out.as_str()), (status, ""), "{words:?}");
        assert!(err.contains(said), "{words:?}: {err}");
    }
}

/// The sheet's own start plays no part: where no table has room for its run, the class and its figures are the same.
#[test]
fn a_class_of_a_sheet_too_large() {
    let (kept, starts) = (here().join("tests/classes/gated.sheet"), here().join("tests/classes/gated.starts"));
    let sheet = scratch("too_large").join("gated.sheet");
    std::fs::write(&sheet, std::fs::read_to_string(kept).unwrap().replace("\nstart\n", "\nstart\tkey\n")).unwrap();
    let (status, _, err) = told(&["ends".as_ref(), sheet.as_os_str()]);
    assert!(status == 1 && err.starts_with("refused 30: "), "{err}");
    for command in ["class", "report"] {
        let (status, out, err) = told(&[command.as_ref(), sheet.as_os_str(), starts.as_os_str()]);
        assert_eq!((status, err.as_str()), (0, ""));
        stored(&here().join("tests/stored").join(format!("gated.{command}")), &out);
    }
}

/// Records, each with what is said of it: the steps of a way, and the same cut short, gone on with, out of order, and of a step that
/// cannot run.
#[test]
fn records_marked() {
    let place = scratch("records");
    let sheet = folder("sheets/low_water.sheet");
    let file = place.join("record");
    let mark = |record: &str| {
        std::fs::write(&file, record).unwrap();
        told(&["mark".as_ref(), sheet.as_os_str(), file.as_os_str()])
    };
    let hand_stop = "# the hand stop, as it was done\n?level_ok -level_ok +level_low\n?level_low +low_alarm +bell_rung\n\
        ?feed_pump -feed_pump +feed_lost\r\n?level_low\t-level_low\t+level_cut\n?level_cut ?low_alarm +acknowledged +by_hand\n\
        ?main_valve -main_valve -main_flame -firing -steam_valve ?pilot_valve -pilot_valve -pilot_flame -fan_on\n";
    let records = [
        ("the hand stop", hand_stop.to_string()),
        ("its last step forgotten", hand_stop.replace(" -fan_on", "")),
        ("a step more", format!("{hand_stop}+vent_open")),
        ("the alarm not looked at", hand_stop.replace(" ?low_alarm", "")),
        ("the alarm before the level", hand_stop.replace("?level_ok", "?low_alarm")),
        ("nothing done", "# nothing\n\n".to_string()),
    ];
    let mut out = String::new();
    for (what, record) in records {
        let (status, said, err) = mark(&record);
        assert_eq!((status, err.as_str()), (0, ""), "{what}");
        let piped = told_from(&["mark".as_ref(), sheet.as_os_str(), "-".as_ref()], std::fs::File::open(&file).unwrap());
        assert_eq!(piped, (0, said.clone(), err));
        out += &format!("# {what}\n{said}");
    }
    stored(&here().join("tests/stored/low_water.marks"), &out);
    let (status, said, err) = told(&["mark".as_ref(), sheet.as_os_str()]);
    assert_eq!((status, said.as_str(), err.as_str()), (2, "", "lawhemuri: mark needs a record: lawhemuri mark SHEET RECORD\n"));
    assert_eq!(told(&["mark", "-", "-"]).0, 2);
    let typo = here().join("tests/refused/16_typo.sheet");
    let (status, said, err) = told(&["mark".as_ref(), typo.as_os_str(), file.as_os_str()]);
    assert!(status == 1 && said.is_empty() && err.contains("did you mean `?open`?"), "{err}");
    let missing = place.join("no_record");
    assert_eq!(told(&["mark".as_ref(), sheet.as_os_str(), missing.as_os_str()]).0, 1);
    for (record, told) in [
        ("+pilot_vlave", "`+pilot_vlave`: the sheet has no fluent `pilot_vlave`; did you mean `pilot_valve`?"),
        ("# nothing\n!trip\n", ":2: `!trip`: a call is no step that is done (62)"),
        (&"+purged ".repeat(64), "refused 60: a record of over 63 steps"),
    ] {
        let (status, said, err) = mark(record);
        assert!(status == 1 && said.is_empty() && err.contains(told), "{err}");
    }
}

/// The page is a function of the sheet and the library: the same from another folder and at another time.
#[test]
fn the_page_is_the_same_from_everywhere() {
    let folder_of_copy = scratch("elsewhere");
    let (sheet, copy) = (folder("sheets/low_water.sheet"), folder_of_copy.join("low_water.sheet"));
    std::fs::copy(&sheet, &copy).unwrap();
    let page = |sheet: &std::path::Path| run(&["page".as_ref(), sheet.as_os_str(), "-o".as_ref(), "-".as_ref()]).stdout;
    let drawn = page(&sheet);
    assert_eq!(drawn, page(&copy));
    let text = String::from_utf8(drawn).unwrap();
    assert!(!text.contains("://") && !text.contains(env!("CARGO_MANIFEST_DIR")));
}

/// A sheet in the folder that LAWHEMURI_SHEETS names is found by its name.
#[test]
fn sheets_by_name() {
    let mut command = std::process::Command::new(env!("CARGO_BIN_EXE_lawhemuri"));
    let output = command.args(["ends", "example"]).env("LAWHEMURI_SHEETS", folder("sheets")).output().unwrap();
    assert_eq!(output.stdout, b"ends\t1\t3\t3\nend\t2\tlit\n");
}

/// The installed program knows the installed sheets, with their ending and without it; a folder hides none, and near names are told.
#[test]
fn sheets_where_installed() {
    let place = scratch("installed");
    let (program, known) = (place.join("bin/lawhemuri"), place.join("share/lawhemuri/sheets"));
    std::fs::create_dir_all(&known).unwrap();
    std::fs::create_dir_all(place.join("bin/example")).unwrap();
    std::fs::copy(env!("CARGO_BIN_EXE_lawhemuri"), &program).unwrap();
    std::fs::copy(folder("sheets/example.sheet"), known.join("example.sheet")).unwrap();
    let ends = |operand: &str| {
        let mut command = std::process::Command::new(&program);
        let output =
            command.args(["ends", operand]).current_dir(place.join("bin")).env_remove("LAWHEMURI_SHEETS").output().unwrap();
        (output.status.code(), String::from_utf8(output.stdout).unwrap(), String::from_utf8(output.stderr).unwrap())
    };
    let found = (Some(0), "ends\t1\t3\t3\nend\t2\tlit\n".to_string(), String::new());
    assert_eq!((ends("example"), ends("example.sheet")), (found.clone(), found));
    for near in ["exmaple", "exmaple.sheet"] {
        assert_eq!(ends(near), (Some(1), String::new(), format!("lawhemuri: no file {near}; did you mean example?\n")));
    }
    std::fs::copy(folder("sheets/low_water.sheet"), place.join("bin/example.sheet")).unwrap();
    assert!(ends("example.sheet").1.starts_with("ends\t3\t"), "a file goes before a known sheet");
}

#[test]
fn two_sheets_are_merged() {
    let place = scratch("merged");
    let (maker, site) = (place.join("maker.sheet"), place.join("site.sheet"));
    std::fs::write(&maker, "fluent\ta\nfluent\tb\naction\tg\nrule\tg\t+a\nstart\ta\ngoal\t!g\n").unwrap();
    std::fs::write(&site, "# site\r\nfluent\tc\r\naction\tg\r\nrule\tg\t+c\r\nstart\tc\r\ngoal\r\n").unwrap();
    let merge =
        |first: &std::path::Path, second: &std::path::Path| told(&["merge".as_ref(), first.as_os_str(), second.as_os_str()]);
    let (status, out, err) = merge(&maker, &site);
    assert_eq!((status, err.as_str()), (0, ""));
    assert_eq!(out, "fluent\ta\nfluent\tb\nfluent\tc\naction\tg\nrule\tg\t+a\nrule\tg\t+c\nstart\ta\tc\ngoal\t!g\n");
    std::fs::write(&site, "start\ngoal\tx\n").unwrap();
    let (status, out, err) = merge(&maker, &site);
    assert_eq!((status, out.as_str()), (1, ""));
    assert!(err.starts_with("refused 14") && err.contains("site.sheet:2"), "{err}");
    let (status, _, err) = merge(&site, &maker);
    assert!(status == 1 && err.contains("site.sheet:2"), "{err}");
    std::fs::write(&site, "fluent\tg\nstart\ngoal\n").unwrap();
    let (status, _, err) = merge(&maker, &site);
    assert!(
        status == 1 && err.starts_with("refused 70: `g` is an action of the maker's sheet and a fluent of the site's"),
        "{err}"
    );
    let (status, _, err) = told(&["merge".as_ref(), maker.as_os_str()]);
    assert!(status == 2 && err.contains("two sheets"), "{err}");
}
