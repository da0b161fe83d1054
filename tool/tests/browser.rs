//! The page in a real browser, where there is one: the steps' text, the marks of each chart, the question answered, the print.

mod common;

use std::fmt::Write;
use std::path::{Path, PathBuf};
use std::process::Command;

use common::{folder, here, run, scratch};
use lawhemuri::unfolding::{Event, Step};
use lawhemuri::Rehearsal;

const BROWSERS: [&str; 3] = ["chromium", "chromium-browser", "google-chrome"];
/// States in one part of a chart, and states up to which a way is drawn whole.
const BAND: usize = 40;
const MARKS: [char; 5] = ['?', '+', '−', '!', '~'];

fn browser() -> Option<PathBuf> {
    let path = std::env::var_os("PATH")?;
    let found =
        std::env::split_paths(&path).flat_map(|folder| BROWSERS.map(|name| folder.join(name))).find(|file| file.is_file());
    if found.is_none() {
        eprintln!("browser: skipped, there is none of {}", BROWSERS.join(", "));
    }
    found
}

/// Runs in the page after its own script: tells what stands on it, then asks as a reader would.
const PROBE: &str = r##"<script>
(function () {
  var out = [], text = function (x) { return x ? x.textContent.trim() : ''; };
  var all = function (where, what) { return Array.prototype.slice.call(where.querySelectorAll(what)); };
  var shown = function () { return all(document, 'section.end').filter(function (x) { return x.offsetParent; }).map(function (x) { return x.id; }).join(' '); };
  out.push('wide ' + (document.documentElement.scrollWidth <= window.innerWidth));
  out.push('shown ' + shown());
  out.push('begins ' + text(document.getElementById('said')));
  all(document, 'a[href^="#"]').forEach(function (a) {
    if (!document.querySelector(a.getAttribute('href'))) out.push('leads nowhere ' + a.getAttribute('href'));
  });
  all(document, 'section.end').forEach(function (end) {
    all(end, 'ol.way li:not(.call):not(.alt)').forEach(function (li) {
      out.push(end.id + ' step ' + text(li.querySelector('.k')) + '|' + text(li.querySelector('.st')));
    });
    all(end, 'svg').forEach(function (svg, part) {
      all(svg, 'g.row').forEach(function (row) {
        out.push(end.id + ' row ' + part + ' ' + row.dataset.fluent + ' ' + all(row, '.hi').length + ' ' + all(row, '.tick').length);
      });
    });
  });
  ASKED.forEach(function (question) {
    question.forEach(function (q) {
      var button = document.querySelector('button[aria-label="only ends ' + q + '"]');
      button.focus();
      if (document.activeElement !== button) out.push('no focus ' + q);
      button.click();
      if (button.getAttribute('aria-pressed') !== 'true') out.push('not pressed ' + q);
    });
    out.push('said ' + text(document.getElementById('said')));
    out.push('left ' + shown());
    document.getElementById('clear').click();
    out.push('again ' + shown());
  });
  var pre = document.createElement('pre');
  pre.id = 'probe';
  pre.textContent = out.join('\n');
  document.body.appendChild(pre);
})();
</script></body>"##;

/// Runs before all else: a fault of any script becomes the title.
const WATCH: &str = "<head><script>window.onerror = function (words) { document.title = 'fault: ' + words; };</script>";

/// Opens the page of a sheet and gives what the probe told.
fn probed(browser: &Path, sheet: &Path, width: usize, asked: &str) -> Vec<String> {
    let name = common::name(sheet);
    let scratch = scratch(&format!("browser_{name}_{width}"));
    let drawn = run(&["page".as_ref(), sheet.as_os_str(), "-o".as_ref(), "-".as_ref()]);
    assert!(drawn.status.success());
    let page =
        String::from_utf8(drawn.stdout).unwrap().replace("<head>", WATCH).replace("</body>", &PROBE.replace("ASKED", asked));
    let file = scratch.join("page.html");
    std::fs::write(&file, page).unwrap();
    let output = Command::new(browser)
        .args(["--headless", "--no-sandbox", "--disable-gpu", "--virtual-time-budget=10000", "--dump-dom"])
        .arg(format!("--window-size={width},900"))
        .arg(format!("--user-data-dir={}", scratch.join("profile").display()))
        .arg(format!("file://{}", file.display()))
        .output()
        .unwrap();
    let dom = String::from_utf8(output.stdout).unwrap();
    assert!(!dom.contains("<title>fault: "), "{name}: the page's script failed");
    let told = dom
        .split("<pre id=\"probe\">")
        .nth(1)
        .unwrap_or_else(|| panic!("{name}: the probe did not run"))
        .split("</pre>")
        .next()
        .unwrap();
    let told: Vec<String> = told.lines().map(String::from).collect();
    assert_eq!(lines(&told, "leads nowhere "), [""; 0], "{name}");
    told
}

/// The lines that begin with a word.
fn lines<'a>(told: &'a [String], word: &str) -> Vec<&'a str> {
    told.iter().filter_map(|line| line.strip_prefix(word)).collect()
}

/// Steps and marks of the way to an end, worked out from the library's states and the way's steps alone.
fn expected(rehearsal: &Rehearsal, number: usize) -> (Vec<String>, Vec<String>) {
    let way = rehearsal.way_to(rehearsal.ends()[number - 1]).unwrap().unwrap();
    let names = rehearsal.names();
    let (mut steps, mut updates) = (Vec::new(), Vec::new());
    for event in &way.events {
        let Event::Step { word, at, .. } = *event else { continue };
        let step = Step::of(word);
        let at = if step.is_update() { at.to_string() } else { String::new() };
        steps.push(format!("end{number} step {at}|{} {}", MARKS[step.kind as usize], names[step.index]));
        if step.is_update() {
            updates.push(step.index);
        }
    }
    assert!(way.states.len() <= BAND, "one part");
    let mut rows = Vec::new();
    for (k, name) in names.iter().enumerate().filter(|(k, _)| updates.contains(k)) {
        let held: Vec<bool> = way.states.iter().map(|state| state >> k & 1 == 1).collect();
        let stretches = (0..held.len()).filter(|&i| held[i] && (i == 0 || !held[i - 1])).count();
        let ticks = (0..updates.len()).filter(|&i| updates[i] == k && way.states[i] == way.states[i + 1]).count();
        rows.push(format!("end{number} row 0 {name} {stretches} {ticks}"));
    }
    (steps, rows)
}

/// Every step of every way stands on the page with its state's number; every chart has its rows, stretches and ticks.
#[test]
fn steps_and_marks() {
    let Some(browser) = browser() else { return };
    let sheets =
        [folder("sheets/low_water.sheet"), folder("sheets/light_up.sheet"), here().join("tests/sheets/keystrokes.sheet")];
    for sheet in sheets {
        let rehearsal = Rehearsal::new(std::fs::read(&sheet).unwrap()).unwrap();
        let told = probed(&browser, &sheet, 1280, "[]");
        assert_eq!(lines(&told, "wide "), ["true"]);
        let (mut counted, mut shown) = (0, String::new());
        for number in 1..=rehearsal.ends().len() {
            let (steps, rows) = expected(&rehearsal, number);
            let on_page = |word: &str| -> Vec<String> {
                told.iter().filter(|line| line.starts_with(&format!("end{number} {word} "))).cloned().collect()
            };
            assert_eq!(on_page("step"), steps, "{}", sheet.display());
            assert_eq!(on_page("row"), rows, "{}", sheet.display());
            counted += steps.len() + rows.len();
            let _ = write!(shown, "end{number} ");
        }
        assert_eq!(lines(&told, "shown "), [shown.trim_end()]);
        assert!(counted > 5);
    }
}

/// A question is answered in a sentence, the other ends fold away, and all come back.
#[test]
fn questions() {
    let Some(browser) = browser() else { return };
    let asked = "[['with pilot_valve'],['with locked_out','without pilot_flame'],['with purged','with by_hand']]";
    let told = probed(&browser, &folder("sheets/low_water.sheet"), 1280, asked);
    let said = [
        "with pilot_valve: 1 of 3 ends: end 3 show all",
        "without pilot_flame, with locked_out: 1 of 3 ends: end 2 show all",
        "with by_hand, with purged: no end show all",
    ];
    assert_eq!(lines(&told, "said "), said);
    assert_eq!(lines(&told, "left"), [" end3", " end2", " "]);
    assert_eq!(lines(&told, "again "), ["end1 end2 end3"; 3]);
    assert!(lines(&told, "no focus").is_empty() && lines(&told, "not pressed").is_empty());
}

/// Many ends: the question still works, in rows and in shares; nothing runs over the side of a narrow window.
#[test]
fn many_ends() {
    let Some(browser) = browser() else { return };
    let told =
        probed(&browser, &here().join("tests/sheets/four_boilers.sheet"), 1280, "[['with lit_1','with lit_2','with lit_3']]");
    assert_eq!(
        lines(&told, "said "),
        ["with lit_1, with lit_2, with lit_3: 4 of 256 ends: end 1, end 65, end 129, end 193 show all"]
    );
    assert_eq!(lines(&told, "left "), ["end1"]);
    assert!(lines(&told, "begins ")[0].starts_with("All ends are shown. "));
    let told = probed(&browser, &here().join("tests/sheets/switches_14.sheet"), 1280, "[['with switch_1','without switch_14']]");
    let press = "Press “with” or “without” beside a name to ask for some.";
    assert_eq!(lines(&told, "begins "), [format!("The first 60 of 16,384 ends are listed. {press}")]);
    let said = lines(&told, "said ")[0];
    assert!(said.starts_with("with switch_1, without switch_14: 4,096 of 16,384 ends: end 2, end 4, "), "{said}");
    let told = probed(&browser, &folder("sheets/light_up.sheet"), 600, "[]");
    assert_eq!(lines(&told, "wide "), ["true"]);
}

/// The page of three ends prints on five to seven sheets of paper.
#[test]
fn print() {
    let Some(browser) = browser() else { return };
    let scratch = scratch("print");
    let (page, paper) = (scratch.join("page.html"), scratch.join("page.pdf"));
    assert!(run(&["page".as_ref(), folder("sheets/low_water.sheet").as_os_str(), "-o".as_ref(), page.as_os_str()])
        .status
        .success());
    let printed = Command::new(browser)
        .args(["--headless", "--no-sandbox", "--disable-gpu"])
        .arg(format!("--user-data-dir={}", scratch.join("profile").display()))
        .arg(format!("--print-to-pdf={}", paper.display()))
        .arg(format!("file://{}", page.display()))
        .output()
        .unwrap();
    assert!(printed.status.success());
    let bytes = std::fs::read(paper).unwrap();
    let text = String::from_utf8_lossy(&bytes);
    assert!(text.starts_with("%PDF"));
    let pages = text.lines().filter(|line| line.trim_end().ends_with("/Type /Page")).count();
    assert!((5..=7).contains(&pages), "{pages} pages");
}
