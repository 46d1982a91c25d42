//! docs/TRACE.md names what exists: definitions, contracts and their clauses, edits, stored records,
//! operations of the oracle. Every edit and every code of the stored records is in a row.
use std::collections::{BTreeMap, BTreeSet};
use std::fs;
use std::path::{Path, PathBuf};

/// The places of a crate's edits.
const EDITS: [&str; 2] = ["must-fail", "edits"];

/// The most edits of must-fail/, over all crates.
const MOST_MUST_FAIL: usize = 25;

/// The crates whose functions callers see; the others are programs.
const LAYERS: [&str; 12] = [
    "refusal",
    "integer",
    "q15",
    "float",
    "half_band",
    "sheet",
    "words",
    "line",
    "parking",
    "taking_up",
    "client",
    "gauge_line",
];

/// Words of the contract column that are no clause.
const KEYWORDS: [&str; 2] = ["requires", "ensures"];

/// The top of the repository. Asked when the test runs: a copy of the tree may come with the binary
/// of another.
fn top() -> PathBuf {
    let own = std::env::var("CARGO_MANIFEST_DIR").expect("cargo runs the tests");
    Path::new(&own).join("../..")
}

fn read(path: &Path) -> Result<String, String> {
    fs::read_to_string(path).map_err(|why| format!("{}: {why}", path.display()))
}

/// A row: the point, then definition, contract, edits and test.
struct Row {
    point: String,
    cells: [String; 4],
}

/// The row of a line of the page that begins with a number.
fn row(line: &str) -> Option<Row> {
    let body = line.strip_prefix("| ")?.strip_suffix(" |")?;
    if !body.starts_with(|c: char| c.is_ascii_digit()) {
        return None;
    }
    let mut cells = body.split(" | ").map(str::to_string);
    let point = cells.next()?;
    let cells: Vec<String> = cells.collect();
    let cells = cells.try_into().unwrap_or_else(|cells: Vec<String>| {
        panic!("point {point}: {} cells behind it", cells.len())
    });
    Some(Row { point, cells })
}

fn rows(page: &str) -> Vec<Row> {
    page.lines().filter_map(row).collect()
}

/// A name in backticks, with those in the bracket behind it.
#[derive(Debug, PartialEq)]
struct Named {
    name: String,
    within: Vec<String>,
}

fn quoted(text: &str) -> Vec<String> {
    text.split('`')
        .skip(1)
        .step_by(2)
        .map(str::to_string)
        .collect()
}

/// The names of a cell in their order. A bracket that begins with a backtick belongs to the name
/// before it.
fn names(cell: &str) -> Vec<Named> {
    let mut found = Vec::new();
    let mut rest = cell;
    while let Some((_, behind)) = rest.split_once('`') {
        let (name, after) = behind.split_once('`').expect("a backtick has no partner");
        let bracket = after
            .strip_prefix(" (`")
            .and_then(|inner| inner.split_once(')'));
        let within = bracket.map_or(Vec::new(), |(inner, _)| quoted(&format!("`{inner}")));
        found.push(Named {
            name: name.to_string(),
            within,
        });
        rest = bracket.map_or(after, |(_, tail)| tail);
    }
    found
}

fn indent(line: &str) -> usize {
    line.len() - line.trim_start().len()
}

/// Whether a line of specs/ declares the name.
fn declares(line: &str, name: &str) -> bool {
    let mut rest = line.trim_start();
    for word in ["unfoldable ", "abbrev ", "pub ", "record ", "data "] {
        rest = rest.strip_prefix(word).unwrap_or(rest);
    }
    line.contains("pub ")
        && rest
            .strip_prefix(name)
            .is_some_and(|behind| behind.starts_with([' ', ':']))
}

/// The fields of the record that stands at a line: what is indented deeper.
fn has_field(lines: &[&str], at: usize, field: &str) -> bool {
    let depth = indent(lines[at]);
    lines[at + 1..]
        .iter()
        .take_while(|line| line.is_empty() || indent(line) > depth)
        .any(|line| declares(line, field))
}

/// `CRATE/FILE.name`, and the record's fields in the bracket.
fn definition(top: &Path, named: &Named) -> Result<(), String> {
    let name = &named.name;
    let wrong = || format!("`{name}` is no CRATE/FILE.name");
    let (place, item) = name.split_once('.').ok_or_else(wrong)?;
    let (layer, file) = place.split_once('/').ok_or_else(wrong)?;
    let text = read(&top.join(format!("crates/{layer}/specs/{file}.antt")))?;
    let lines: Vec<&str> = text.lines().collect();
    let at = lines.iter().position(|line| declares(line, item));
    let at = at.ok_or_else(|| format!("no definition `{name}`"))?;
    let missing = named
        .within
        .iter()
        .find(|field| !has_field(&lines, at, field));
    missing.map_or(Ok(()), |field| {
        Err(format!("`{name}` has no field `{field}`"))
    })
}

/// A function: the stem of its file, the type whose method it is, and its head up to the body.
struct Function {
    module: String,
    method_of: String,
    name: String,
    head: String,
}

/// The name of the function that a line begins.
fn function_name(line: &str) -> Option<&str> {
    let code = line.trim_start();
    let behind = match code.strip_prefix("fn ") {
        Some(behind) => behind,
        None if code.starts_with("pub") => code.split_once(" fn ")?.1,
        None => return None,
    };
    behind.split(['(', '<']).next()
}

/// Whether a line begins a function's body: by itself, or behind a head that has no contract.
fn begins_body(line: &str) -> bool {
    let line = line.trim();
    let bare = !line.starts_with("ensures") && !line.starts_with("requires");
    line == "{"
        || line == "{}"
        || bare && (line.ends_with(") {") || line.contains(" -> ") && line.ends_with(" {"))
}

/// From a function's first line to the line that begins its body.
fn head(lines: &[&str]) -> String {
    let end = lines.iter().position(|line| begins_body(line));
    lines[..=end.unwrap_or(lines.len() - 1)].join("\n")
}

/// The type in what follows `impl`: ` Line {`, `<'a> TapSheet<'a> {` or `<T: StageTable> DecCascade<T> {`.
/// Of a trait's `impl` it is the trait.
fn type_named(behind: &str) -> Option<&str> {
    let name = match behind.strip_prefix('<') {
        Some(bounds) => bounds.split_once("> ")?.1,
        None => behind.strip_prefix(' ')?,
    };
    name.split(['<', ' ']).next()
}

fn functions_of(file: &Path) -> Result<Vec<Function>, String> {
    let text = read(file)?;
    let lines: Vec<&str> = text.lines().collect();
    let module = file
        .file_stem()
        .map_or(String::new(), |stem| stem.to_string_lossy().to_string());
    let mut method_of = String::new();
    let mut found = Vec::new();
    for (at, line) in lines.iter().enumerate() {
        if let Some(name) = line.strip_prefix("impl").and_then(type_named) {
            method_of = name.to_string();
        }
        if *line == "}" {
            method_of.clear();
        }
        if let Some(name) = function_name(line) {
            let head = head(&lines[at..]);
            found.push(Function {
                module: module.clone(),
                method_of: method_of.clone(),
                name: name.to_string(),
                head,
            });
        }
    }
    Ok(found)
}

/// The files of a folder with an ending, in order; none where there is no folder.
fn files(folder: &Path, ending: &str) -> Vec<PathBuf> {
    let entries = fs::read_dir(folder).into_iter().flatten().flatten();
    let mut found: Vec<PathBuf> = entries.map(|entry| entry.path()).collect();
    found.retain(|path| path.extension().is_some_and(|end| end == ending));
    found.sort();
    found
}

fn functions(top: &Path, layer: &str) -> Result<Vec<Function>, String> {
    let mut all = Vec::new();
    for file in files(&top.join(format!("crates/{layer}/src")), "rt") {
        all.extend(functions_of(&file)?);
    }
    Ok(all)
}

/// Whether the function is meant by what stands between the crate and its name: a type, a module, or
/// nothing.
fn meant(function: &Function, between: &[&str]) -> bool {
    between
        .iter()
        .all(|part| function.method_of == *part || function.module == *part)
}

fn has_clause(head: &str, clause: &str) -> bool {
    head.lines().any(|line| {
        line.trim_start()
            .starts_with(&format!("ensures {clause} {{"))
    })
}

/// `CRATE::function`, with its type or module between, and the clauses in the bracket.
fn contract(top: &Path, named: &Named) -> Result<(), String> {
    let parts: Vec<&str> = named.name.split("::").collect();
    let (name, between) = (parts[parts.len() - 1], &parts[1..parts.len() - 1]);
    let all = functions(top, parts[0])?;
    let found = all.iter().find(|f| f.name == name && meant(f, between));
    let found = found.ok_or_else(|| format!("no function `{}`", named.name))?;
    if !found.head.contains("ensures") {
        return Err(format!("`{}` has no contract", named.name));
    }
    let missing = named
        .within
        .iter()
        .find(|clause| !has_clause(&found.head, clause));
    missing.map_or(Ok(()), |clause| {
        Err(format!("`{}` has no clause `{clause}`", named.name))
    })
}

fn crates(top: &Path) -> Vec<String> {
    let entries = fs::read_dir(top.join("crates"))
        .expect("crates/ is there")
        .flatten();
    let mut names: Vec<String> = entries
        .map(|entry| entry.file_name().to_string_lossy().to_string())
        .collect();
    names.sort();
    names
}

/// The clauses of all contracts, for a name by itself: "clause `answer` of every function".
fn clauses(top: &Path) -> Result<BTreeSet<String>, String> {
    let mut all = BTreeSet::new();
    for layer in crates(top) {
        let heads = functions(top, &layer)?;
        let lines = heads.iter().flat_map(|f| f.head.lines());
        let ensured = lines.filter_map(|line| line.trim_start().strip_prefix("ensures "));
        all.extend(
            ensured
                .filter_map(|rest| rest.split_once(" {"))
                .map(|(name, _)| name.to_string()),
        );
    }
    Ok(all)
}

fn contract_cell(top: &Path, clauses: &BTreeSet<String>, named: &Named) -> Result<(), String> {
    let name = &named.name;
    if name.contains("::") {
        return contract(top, named);
    }
    if name.contains('/') {
        return definition(top, named);
    }
    if clauses.contains(name) || KEYWORDS.contains(&name.as_str()) {
        return Ok(());
    }
    Err(format!("`{name}` is neither a function nor a clause"))
}

/// The edits of all crates, as CRATE/NAME.
fn edits(top: &Path) -> BTreeSet<String> {
    let mut all = BTreeSet::new();
    for layer in crates(top) {
        let found = EDITS
            .iter()
            .flat_map(|place| files(&top.join(format!("crates/{layer}/{place}")), "edit"));
        all.extend(
            found.filter_map(|path| {
                Some(format!("{layer}/{}", path.file_stem()?.to_string_lossy()))
            }),
        );
    }
    all
}

/// The codes of the stored records: the second word of each line, its last two digits.
fn stored_codes(top: &Path) -> Result<BTreeSet<String>, String> {
    let text = read(&top.join("crates/replay/stdin"))?;
    let words = text.lines().filter_map(|line| line.split(' ').nth(1));
    Ok(words
        .map(|word| word.trim_start_matches("000000").to_string())
        .collect())
}

fn code(word: &str) -> Option<u8> {
    (word.len() == 2)
        .then(|| u8::from_str_radix(word, 16).ok())
        .flatten()
}

/// The codes of one entry of a list: `12`, or `12–16`.
fn entry_codes(entry: &str) -> Option<Vec<String>> {
    let (first, last) = entry.split_once('–').unwrap_or((entry, entry));
    let (first, last) = (code(first)?, code(last)?);
    Some((first..=last).map(|code| format!("{code:02x}")).collect())
}

/// The codes behind the word "replay", up to the first word that is none.
fn replayed(cell: &str) -> Vec<String> {
    let lists = cell.split("replay ").skip(1);
    let entries = lists.map(|list| {
        list.split([',', ' ', ';', ':'])
            .filter(|word| !word.is_empty())
    });
    entries
        .flat_map(|words| words.map_while(entry_codes).flatten())
        .collect()
}

/// What the test column names: stored codes, operations of the oracle, the readings.
fn test_cell(top: &Path, stored: &BTreeSet<String>, cell: &str) -> Result<(), String> {
    if let Some(code) = replayed(cell).iter().find(|code| !stored.contains(*code)) {
        return Err(format!("no stored record has the code {code}"));
    }
    names(cell)
        .iter()
        .try_for_each(|named| tested(top, &named.name))
}

fn tested(top: &Path, name: &str) -> Result<(), String> {
    if name == "readings" {
        return read(&top.join("crates/readings/stdout")).map(|_| ());
    }
    let sources = files(&top.join("tests/oracle/src"), "rs");
    let operation = format!("\"{name}\"");
    let found = sources
        .iter()
        .any(|file| read(file).is_ok_and(|text| text.contains(&operation)));
    if found {
        Ok(())
    } else {
        Err(format!("the oracle has no operation `{name}`"))
    }
}

/// What exists, gathered once.
struct There {
    top: PathBuf,
    clauses: BTreeSet<String>,
    edits: BTreeSet<String>,
    codes: BTreeSet<String>,
}

fn there() -> There {
    let top = top();
    let clauses = clauses(&top).expect("the sources are read");
    let codes = stored_codes(&top).expect("the records are read");
    There {
        edits: edits(&top),
        top,
        clauses,
        codes,
    }
}

/// The files of antt that a cell names, from crates/ on.
fn paths(top: &Path, cell: &str) -> Result<(), String> {
    let mut words = cell
        .split([' ', ',', ';'])
        .filter(|word| word.ends_with(".antt"));
    let missing = words.find(|file| !top.join("crates").join(file).exists());
    missing.map_or(Ok(()), |file| Err(format!("no file crates/{file}")))
}

fn edit_cell(edits: &BTreeSet<String>, cell: &str) -> Result<(), String> {
    let unknown = names(cell)
        .into_iter()
        .find(|named| !edits.contains(&named.name));
    unknown.map_or(Ok(()), |named| Err(format!("no edit `{}`", named.name)))
}

/// The first name of a row that does not exist.
fn checked(there: &There, row: &Row) -> Result<(), String> {
    let [defined, contracted, edited, tested] = &row.cells;
    row.cells
        .iter()
        .try_for_each(|cell| paths(&there.top, cell))?;
    names(defined)
        .iter()
        .try_for_each(|named| definition(&there.top, named))?;
    names(contracted)
        .iter()
        .try_for_each(|named| contract_cell(&there.top, &there.clauses, named))?;
    edit_cell(&there.edits, edited)?;
    test_cell(&there.top, &there.codes, tested)
}

fn wrong(there: &There, row: &Row) -> Option<String> {
    let why = checked(there, row).err()?;
    Some(format!("point {}: {why}", row.point))
}

fn page() -> String {
    read(&top().join("docs/TRACE.md")).expect("docs/TRACE.md is there")
}

#[test]
fn every_name_is_there() {
    let there = there();
    let wrongs: Vec<String> = rows(&page())
        .iter()
        .filter_map(|row| wrong(&there, row))
        .collect();
    assert!(wrongs.is_empty(), "docs/TRACE.md\n{}", wrongs.join("\n"));
}

#[test]
fn the_points_are_counted() {
    let points: Vec<String> = rows(&page()).into_iter().map(|row| row.point).collect();
    for (at, point) in points.iter().enumerate() {
        assert!(
            point.starts_with(&format!("{} ", at + 1)),
            "{point} stands at {}",
            at + 1
        );
    }
    assert!(!points.is_empty());
}

#[test]
fn every_edit_and_every_code_is_in_a_row() {
    let there = there();
    let rows = rows(&page());
    let named: BTreeSet<String> = rows
        .iter()
        .flat_map(|row| names(&row.cells[2]))
        .map(|named| named.name)
        .collect();
    let missing: Vec<&String> = there.edits.difference(&named).collect();
    assert!(
        missing.is_empty(),
        "edits in no row of docs/TRACE.md: {missing:?}"
    );
    let replayed: BTreeSet<String> = rows
        .iter()
        .flat_map(|row| replayed(&row.cells[3]))
        .collect();
    let missing: Vec<&String> = there.codes.difference(&replayed).collect();
    assert!(
        missing.is_empty(),
        "codes in no row of docs/TRACE.md: {missing:?}"
    );
}

/// What keeps an edit from being tried: a file that is not there, an old text that does not stand there once.
fn unfit(folder: &Path, edit: &str) -> Option<String> {
    let (mut file, mut old) = ("", "");
    let mut texts: BTreeMap<&str, String> = BTreeMap::new();
    for line in edit.lines() {
        if let Some(name) = line.strip_prefix("file: ") {
            file = name;
        } else if let Some(text) = line.strip_prefix("old: ") {
            old = text;
        } else if let Some(new) = line.strip_prefix("new:") {
            let text = match texts.remove(file) {
                Some(text) => text,
                None => match read(&folder.join(file)) {
                    Ok(text) => text,
                    Err(why) => return Some(why),
                },
            };
            let times = text.matches(old).count();
            if times != 1 {
                return Some(format!("{times} times in {file}: {old}"));
            }
            let new = new.strip_prefix(' ').unwrap_or(new);
            texts.insert(file, text.replace(old, new));
        }
    }
    texts.is_empty().then(|| "no old and new".to_string())
}

#[test]
fn every_edit_can_be_applied() {
    let top = top();
    for name in edits(&top) {
        let (layer, edit) = name.split_once('/').expect("CRATE/NAME");
        let folder = top.join("crates").join(layer);
        let places = ["must-fail", "edits"].map(|place| folder.join(place).join(edit));
        let file = places.map(|place| place.with_extension("edit"));
        let text = file.iter().find_map(|file| read(file).ok());
        let text = text.unwrap_or_else(|| panic!("no file of {name}"));
        assert_eq!(unfit(&folder, &text), None, "{name}");
    }
}

#[test]
fn an_edit_that_cannot_be_applied_is_found() {
    let folder = top().join("crates/refusal");
    let edit = |file: &str, old: &str| format!("file: {file}\nold: {old}\nnew: x\n");
    for unfit_edit in [
        edit("src/none.rt", "pub"),
        edit("src/lib.rt", "nothing says this"),
        edit("src/lib.rt", "pub"),
        String::new(),
    ] {
        assert!(unfit(&folder, &unfit_edit).is_some(), "{unfit_edit}");
    }
}

/// Each edit of must-fail/ proves its crate from nothing: CONTRIBUTING.md keeps them few.
#[test]
fn few_edits_prove_their_crate_from_nothing() {
    let places = crates(&top())
        .into_iter()
        .map(|layer| format!("crates/{layer}/must-fail"));
    let count = places
        .flat_map(|place| files(&top().join(place), "edit"))
        .count();
    assert!(
        count <= MOST_MUST_FAIL,
        "{count} edits in must-fail/, at most {MOST_MUST_FAIL}"
    );
}

/// Points 1 and 4, which no name of the table can hold.
#[test]
fn every_public_function_has_a_contract_and_asks_for_nothing() {
    for layer in LAYERS {
        let all = functions(&top(), layer).expect("the sources are read");
        let mut public = all
            .iter()
            .filter(|f| f.head.trim_start().starts_with("pub "));
        assert!(public.clone().count() > 0, "{layer} has no public function");
        let wrong = public.find(|f| !f.head.contains("ensures") || f.head.contains("requires"));
        assert!(
            wrong.is_none(),
            "{layer}: {}",
            wrong.map_or("", |f| &f.head)
        );
    }
}

/// A row of which one cell is given.
fn with(cell: usize, text: &str) -> Row {
    let mut cells = ["–", "–", "–", "–"].map(str::to_string);
    cells[cell] = text.to_string();
    Row {
        point: "0 made up".to_string(),
        cells,
    }
}

#[test]
fn names_that_are_not_there_are_found() {
    let there = there();
    let good = [
        (0, "`line/Demand3.Kept` (`first`, `filled`)"),
        (1, "`line::Line::feed` (`answer`, `demand3`)"),
        (3, "replay c1–c3, 11; compare `Line::step`"),
    ];
    for (cell, text) in good {
        assert_eq!(wrong(&there, &with(cell, text)), None, "{text}");
    }
    let bad = [
        (0, "`line/Demand3.Kept` (`first`, `last`)"),
        (0, "`line/Demand4.Kept`"),
        (0, "`line/Demand3.kept`"),
        (1, "`line::Line::feed` (`answers`)"),
        (1, "`line::feed::feed`"),
        (1, "`nowhere`"),
        (2, "`line/no_such_edit`"),
        (3, "replay c1–c4"),
        (3, "compare `Line::walk`"),
        (3, "line/specs/Readings.antt"),
    ];
    for (cell, text) in bad {
        assert!(wrong(&there, &with(cell, text)).is_some(), "{text}");
    }
}
