//! `tapermoss files`: the files of a partition, with the paths that its tree gives them. It asks for a good partition, not
//! for a sound one.

use crate::directories::{Directories, ROWS};
use crate::fields::{self, escaped, escaped_path, BLOCKS_IN_USE, KIND};
use crate::hashing::RuleArguments;
use crate::image::{PartitionArguments, Reading};
use crate::index;
use crate::names::hex;
use crate::paths::Paths;
use crate::problem::Problem;
use crate::told::{joined, of_name, Told};
use crate::volume;
use crate::walked::Walked;
use clap::Args;
use perq::{Drive, NameFault, Refusal};
use serde_json::{json, Value};

pub const EXAMPLES: &str = "\
Blocks are those of data; in use counts the file's own block and its pointer blocks too. The name is the one in the file's
description; what cannot be printed in it is escaped, and JSON has its bytes too. The path is one by which the directories
lead to the file, as --path takes it. It is left blank where it is the name, compared without case; - says that no path leads
to the file, as to the root that only the empty path names, and ? that it is not known, since not all of the tree was looked at;
it is said why. JSON has all paths of every file that were found, and whether these are all. If there is no tree, it is said
why.

! before a name says that `describe` would refuse it (number 12); it stays readable all the same. - stands for no name, as
`create` leaves it, and after a ! for one that is too long to be there. JSON says of each which rule is broken and where.

Examples:
  tapermoss files disk.img
  tapermoss files --partition 210 --json disk.img";

/// What the mark means, below rows that have it.
const MARK: &str =
    "! is a name that `describe` would refuse (12); with --json it is said which rule it breaks and where";

#[derive(Args)]
pub struct Arguments {
    #[command(flatten)]
    place: PartitionArguments,
    #[command(flatten)]
    rule: RuleArguments,
}

/// A file, as it is listed.
struct Listed {
    lbn: u32,
    /// A block from 57,344 up has none on a hard drive.
    fileid: Option<u32>,
    kind: u16,
    blocks: u32,
    in_use: u16,
    name: Option<Vec<u8>>,
    /// Why describe would refuse the name.
    fault: Option<NameFault>,
}

impl Listed {
    /// Whether its name is marked: that it has none is seen without a mark.
    fn is_marked(&self) -> bool {
        self.fault.is_some_and(|fault| fault != NameFault::Length { length: 0 })
    }
}

/// All that is listed.
struct List {
    files: Vec<Listed>,
    malformed: Vec<u32>,
    paths: Paths,
}

fn list(image: &[u8], drive: Drive, s: u32, f: u32) -> Result<Listed, Refusal> {
    let description = perq::description(image, drive, s, f)?;
    Ok(Listed {
        lbn: f,
        fileid: perq::lbn_to_fileid(drive, f).ok(),
        kind: fields::word(image, f, KIND),
        blocks: index::length(image, f),
        in_use: fields::word(image, f, BLOCKS_IN_USE),
        name: fields::file_name(&description).map(<[u8]>::to_vec),
        fault: perq::name(&description).err(),
    })
}

fn as_json(list: &List) -> Value {
    let path = |path: &Vec<u8>| json!({"path": escaped_path(path), "path_bytes": hex(path)});
    let file = |file: &Listed| {
        let own = json!({
            "lbn": file.lbn, "fileid": file.fileid, "kind": file.kind, "blocks": file.blocks,
            "in_use": file.in_use, "name": file.name.as_deref().map(escaped),
            "name_bytes": file.name.as_deref().map(hex),
            "name_remark": file.fault.map(|fault| fault.to_string()),
            "paths": list.paths.of(file.lbn).iter().map(path).collect::<Vec<Value>>(),
        });
        joined(own, &of_name(file.fault))
    };
    json!({
        "files": list.files.iter().map(file).collect::<Vec<Value>>(),
        "malformed": list.malformed,
        "paths_complete": list.paths.complete,
        "paths_remark": list.paths.remark,
        "passed_over": list.paths.passed_over,
    })
}

fn as_text(list: &List) -> String {
    let any = list.files.iter().any(Listed::is_marked);
    let marked = |mark: &str, name: &str| match any {
        true => format!("{mark:<3}{name}"),
        false => name.to_string(),
    };
    let rows = list.files.iter().map(|file| {
        let name = file.name.as_deref().map_or("-".to_string(), escaped);
        let name = marked(if file.is_marked() { "!" } else { "" }, &name);
        (file, name, list.paths.beside(file.lbn, file.name.as_deref().unwrap_or_default()))
    });
    let rows: Vec<(&Listed, String, String)> = rows.collect();
    let name = marked("", "name");
    let wide = match rows.iter().any(|(_, _, path)| !path.is_empty()) {
        true => rows.iter().map(|(_, name, _)| name.len()).max().unwrap_or(0).max(name.len()),
        false => 0,
    };
    let line = |start: String, name: &str, path: &str| {
        let line = format!("{start}  {name:<wide$}  {path}");
        line.trim_end().to_string() + "\n"
    };
    let heading = if wide > 0 { "path" } else { "" };
    let mut text = line("   LBN  FileID   kind  blocks  in use".to_string(), &name, heading);
    for (file, name, path) in &rows {
        let fileid = file.fileid.map_or("-".to_string(), |fileid| fileid.to_string());
        let Listed { lbn, kind, blocks, in_use, .. } = file;
        let start = format!("{lbn:>6}  {fileid:>6}  {kind:>5}  {blocks:>6}  {in_use:>6}");
        text += &line(start, name, path);
    }
    text + &remarks(list)
}

/// What is said below the rows, a line each.
fn remarks(list: &List) -> String {
    let any = list.files.iter().any(Listed::is_marked);
    let mark = any.then(|| MARK.to_string());
    let malformed = |block: &u32| format!("block {block} is a malformed file block");
    let passed_over = Walked::remark(list.paths.passed_over);
    let others = list.paths.remark.clone().into_iter().chain(passed_over);
    let all = mark.into_iter().chain(list.malformed.iter().map(malformed)).chain(others);
    all.map(|remark| remark + "\n").collect()
}

pub fn run(arguments: &Arguments) -> Result<Told, Problem> {
    let rule = arguments.rule.rule()?;
    let image = Reading::open(&arguments.place)?;
    let refused = |refusal| image.asked().refused(refusal);
    let survey = volume::survey(&image.bytes, image.drive, image.s).map_err(refused)?;
    let listed = survey.files.iter().map(|&f| list(&image.bytes, image.drive, image.s, f));
    let files = listed.collect::<Result<Vec<Listed>, Refusal>>().map_err(refused)?;
    let directories = Directories { image: &image.bytes, drive: image.drive, s: image.s, rule };
    let paths = Paths::of_tree(&directories, ROWS);
    let list = List { files, malformed: survey.malformed, paths };
    Ok(Told::done(as_text(&list), as_json(&list)))
}
