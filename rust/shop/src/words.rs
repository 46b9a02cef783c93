//! The words of the command: its subcommands and their options.

use crate::failure::Failure;
use crate::scan::{Columns, Reading, Selection};
use clap::{Args, Parser, Subcommand, ValueEnum};
use std::path::PathBuf;

/// Lays a surface of triangles over the scanned wall of a bell.
///
/// A FILE is a cloud file, a PLY file (ASCII or binary) or lines x y z nx ny nz; which of them is told by its content.
/// `-` is standard input, and a folder stands for the scans in it (.csv, .ply, .xyz, .txt, .asc, .pts), by name.
#[derive(Parser)]
#[command(name = "yarrowbleat", version, max_term_width = 110, after_long_help = crate::failure::table())]
pub struct Words {
    #[command(subcommand)]
    pub command: Command,
}

#[derive(Subcommand)]
pub enum Command {
    Lay(Lay),
    Stl(Stl),
    Page(Page),
    Convert(Convert),
    Estimate(Estimate),
    Why(Why),
    Nearest(Nearest),
    Season(Season),
    Order(Order),
    Settings(Settings),
    Verify(Verify),
    Completions(Completions),
    Man(Man),
    #[command(hide = true)]
    OneLaid(OneLaid),
}

/// How scans are read.
#[derive(Args, Clone, Default)]
pub struct ReadWords {
    /// Keeps one point a cell, the lowest-numbered, and at most N of them: the cells are cubes with a corner at 0, and
    /// their side is the smallest of 4, 5, 6 and 7 times powers of two that leaves no more. This is another cloud than
    /// the scan, which is told
    #[arg(long, value_name = "N", value_parser = clap::value_parser!(u16).range(3..=4096))]
    pub thin: Option<u16>,
    /// Keeps the points from one corner of a box to the other, before any thinning: --crop=-1,-1,0,1,1,2
    #[arg(long, value_name = "X,Y,Z,X,Y,Z", allow_hyphen_values = true, value_parser = corners)]
    pub crop: Option<[[f32; 3]; 2]>,
    /// Which numbers of a line are which, `-` for one that is passed over: --columns x,y,z,-,nx,ny,nz
    #[arg(long, value_name = "NAMES", value_parser = Columns::parse)]
    pub columns: Option<Columns>,
    /// Takes a scan that has no normals: no face depends on them
    #[arg(long)]
    pub without_normals: bool,
}

impl ReadWords {
    pub fn reading(&self, quiet: bool) -> Reading {
        Reading {
            selection: Selection { crop: self.crop, thin: self.thin.map(usize::from) },
            columns: self.columns.clone(),
            without_normals: self.without_normals,
            mend: false,
            quiet,
        }
    }
}

/// At which settings a patch is laid.
#[derive(Args, Clone, Default)]
pub struct LayWords {
    /// The ball's radius, instead of a cloud file's own; where there is neither, it is estimated, to six places
    #[arg(long, value_name = "R", value_parser = finite)]
    pub radius: Option<f32>,
    /// A TOML file of settings; `yarrowbleat settings --print` writes one
    #[arg(long, value_name = "FILE")]
    pub settings: Option<PathBuf>,
    #[command(flatten)]
    pub read: ReadWords,
    /// Tells nothing but results and failures
    #[arg(long, short)]
    pub quiet: bool,
}

/// Over many files.
#[derive(Args, Clone, Default)]
pub struct ManyWords {
    /// How many files are worked on at once; by default as many as there are cores. Results come in the files' order
    #[arg(long, value_name = "N", value_parser = clap::value_parser!(u16).range(1..=512))]
    pub jobs: Option<u16>,
}

/// How long a file may take.
#[derive(Args, Clone, Default)]
pub struct LimitWords {
    /// Gives a file up after so many seconds, reports it and goes on; each file is then laid by a process of its own
    #[arg(long, value_name = "SECONDS", value_parser = seconds)]
    pub limit: Option<f64>,
}

/// Where a result goes.
#[derive(Args, Clone, Default)]
pub struct OutWords {
    /// The file to write; `-` is standard output
    #[arg(short, long, value_name = "FILE", conflicts_with = "out_dir")]
    pub output: Option<PathBuf>,
    /// The folder for the results of many files, each under its own name
    #[arg(long, value_name = "FOLDER")]
    pub out_dir: Option<PathBuf>,
    /// Replaces a file that is there and holds something else; an input is never replaced
    #[arg(long)]
    pub force: bool,
}

/// Lays patches: a line for each file with its faces and how much they reach.
///
/// 'Reached' counts points that some face touches. It says nothing of the wall between them: a patch over n points has
/// at most n - 2 faces, where a closed surface has about 2n, so that much of a wall has no face even where every point
/// is reached. The open edges, which lie in one face alone, and the faces' area say how much.
#[derive(Args)]
pub struct Lay {
    /// Scans, folders of scans, or `-`
    #[arg(required_unless_present = "watch")]
    pub files: Vec<PathBuf>,
    #[command(flatten)]
    pub lay: LayWords,
    #[command(flatten)]
    pub limit: LimitWords,
    #[command(flatten)]
    pub many: ManyWords,
    /// Instead of the line, the counts and a line for each face, as the program `lay` prints them
    #[arg(long, group = "form")]
    pub listing: bool,
    /// After the line, the numbers of the points that were not reached
    #[arg(long, group = "form")]
    pub coverage: bool,
    /// A JSON object for each file
    #[arg(long, group = "form")]
    pub json: bool,
    /// A table with a row for each file
    #[arg(long, group = "form")]
    pub csv: bool,
    /// Ends with status 10 where a smaller part of a file's points is reached
    #[arg(long, value_name = "PART", value_parser = part)]
    pub require_reached: Option<f64>,
    /// Lays each scan that comes into the folder, or changes there, until it is stopped
    #[arg(long, value_name = "FOLDER", conflicts_with = "files")]
    pub watch: Option<PathBuf>,
}

/// The kinds of files that faces are written to.
#[derive(Clone, Copy, Debug, PartialEq, Eq, ValueEnum)]
pub enum Format {
    Stl,
    Ply,
    Obj,
}

/// Writes the faces for a viewer: binary STL, or PLY or OBJ with the points and normals.
#[derive(Args)]
pub struct Stl {
    /// Scans, folders of scans, or `-`
    #[arg(required_unless_present = "watch")]
    pub files: Vec<PathBuf>,
    #[command(flatten)]
    pub lay: LayWords,
    #[command(flatten)]
    pub limit: LimitWords,
    #[command(flatten)]
    pub many: ManyWords,
    #[command(flatten)]
    pub out: OutWords,
    /// The kind of file; by default by the ending of -o, and STL otherwise
    #[arg(long, value_enum)]
    pub format: Option<Format>,
    /// Turns faces so that every shared edge runs once each way; neighbours may still fold over
    #[arg(long, conflicts_with = "by_normals")]
    pub turned: bool,
    /// Swaps the first two corners of each face that looks against the mean of its points' scanned normals
    #[arg(long, conflicts_with = "without_normals")]
    pub by_normals: bool,
    /// Writes the faces of each scan that comes into the folder, or changes there, until it is stopped
    #[arg(long, value_name = "FOLDER", conflicts_with = "files", requires = "out_dir")]
    pub watch: Option<PathBuf>,
}

/// Makes one page that shows the points, those reached and those not, and the faces; it needs no network.
#[derive(Args)]
pub struct Page {
    /// Scans, folders of scans, or `-`
    #[arg(required = true)]
    pub files: Vec<PathBuf>,
    #[command(flatten)]
    pub lay: LayWords,
    #[command(flatten)]
    pub limit: LimitWords,
    #[command(flatten)]
    pub many: ManyWords,
    #[command(flatten)]
    pub out: OutWords,
}

/// Makes a cloud file of a scan, or mends one with CR LF or a byte order mark.
///
/// A cloud file has six places. What these can't keep exactly is refused, since other numbers may give other faces.
#[derive(Args)]
pub struct Convert {
    /// Scans, folders of scans, or `-`
    #[arg(required = true)]
    pub files: Vec<PathBuf>,
    /// The ball's radius; by default the file's own, or else an estimate, to six places
    #[arg(long, value_name = "R", value_parser = finite)]
    pub radius: Option<f32>,
    /// Rounds what six places can't keep, and says how many numbers changed: faces may then differ from the scan's
    #[arg(long)]
    pub rounded: bool,
    #[command(flatten)]
    pub read: ReadWords,
    #[command(flatten)]
    pub many: ManyWords,
    #[command(flatten)]
    pub out: OutWords,
    /// Tells nothing but results and failures
    #[arg(long, short)]
    pub quiet: bool,
}

/// Estimates a radius: 2.5 times a percentile of the points' least distances.
#[derive(Args)]
pub struct Estimate {
    /// Scans, folders of scans, or `-`
    #[arg(required = true)]
    pub files: Vec<PathBuf>,
    /// The percentile, 0 to 1
    #[arg(long, value_name = "P", default_value = "0.5", value_parser = finite)]
    pub percentile: f32,
    #[command(flatten)]
    pub read: ReadWords,
    #[command(flatten)]
    pub many: ManyWords,
    /// A JSON object for each file
    #[arg(long, group = "form")]
    pub json: bool,
    /// A table with a row for each file
    #[arg(long, group = "form")]
    pub csv: bool,
    /// Tells nothing but results and failures
    #[arg(long, short)]
    pub quiet: bool,
}

/// Says why three points make no face, with what was measured and the limit.
#[derive(Args)]
pub struct Why {
    /// A scan, or `-`
    pub file: PathBuf,
    /// The first point's number, from 0
    pub a: usize,
    /// The second point's
    pub b: usize,
    /// The third point's
    pub c: usize,
    #[command(flatten)]
    pub lay: LayWords,
    /// A JSON object
    #[arg(long)]
    pub json: bool,
}

/// Finds the nearest scanned point to each of some spots.
#[derive(Args)]
#[command(allow_negative_numbers = true)]
pub struct Nearest {
    /// A scan, or `-`
    pub file: PathBuf,
    /// The spots' coordinates, three to a spot
    #[arg(value_parser = finite, required_unless_present = "spots")]
    pub numbers: Vec<f32>,
    /// A file of lines x y z, one for each spot
    #[arg(long, value_name = "FILE", conflicts_with = "numbers")]
    pub spots: Option<PathBuf>,
    #[command(flatten)]
    pub read: ReadWords,
    /// A JSON object for each spot
    #[arg(long)]
    pub json: bool,
    /// Tells nothing but results and failures
    #[arg(long, short)]
    pub quiet: bool,
}

/// Adds patches up over folders of scans: exact figures, and the best and the worst covered.
#[derive(Args)]
pub struct Season {
    /// Folders of scans, or scans
    #[arg(required = true, value_name = "FOLDER")]
    pub files: Vec<PathBuf>,
    #[command(flatten)]
    pub lay: LayWords,
    #[command(flatten)]
    pub limit: LimitWords,
    #[command(flatten)]
    pub many: ManyWords,
    /// A JSON object
    #[arg(long)]
    pub json: bool,
}

/// Says in what order the faces of another program could be a patch in shape.
#[derive(Args)]
pub struct Order {
    /// A file of lines a,b,c: three point numbers from 0, or `-`
    pub faces: PathBuf,
    /// How many points the cloud has; by default one more than the highest number
    #[arg(long, value_name = "N")]
    pub points: Option<usize>,
    /// A JSON object
    #[arg(long)]
    pub json: bool,
}

/// Checks a file of settings, or prints the settings with their bounds.
#[derive(Args)]
pub struct Settings {
    /// A TOML file of settings
    #[arg(required_unless_present = "print")]
    pub file: Option<PathBuf>,
    /// Prints the settings, the file's or else the defaults, as a TOML file
    #[arg(long)]
    pub print: bool,
}

/// Says whether a listing, an STL or OBJ file, or lines a,b,c are what is laid today, and where they first differ.
#[derive(Args)]
pub struct Verify {
    /// A scan, or `-`
    pub file: PathBuf,
    /// What is held against it
    pub listing: PathBuf,
    #[command(flatten)]
    pub lay: LayWords,
    #[command(flatten)]
    pub limit: LimitWords,
    /// The file has the faces as `stl --turned` writes them
    #[arg(long)]
    pub turned: bool,
    /// A JSON object
    #[arg(long)]
    pub json: bool,
}

/// Prints the completions for a shell.
#[derive(Args)]
pub struct Completions {
    pub shell: clap_complete::Shell,
}

/// Prints the manual page.
#[derive(Args)]
pub struct Man {}

/// What `--limit` starts: lays one file and prints all of it for the process that waits.
#[derive(Args)]
pub struct OneLaid {
    pub file: PathBuf,
    #[command(flatten)]
    pub lay: LayWords,
    #[arg(long)]
    pub turned: bool,
}

fn finite(text: &str) -> Result<f32, String> {
    match text.parse::<f32>() {
        Ok(number) if number.is_finite() => Ok(number),
        _ => Err("not a number".to_string()),
    }
}

fn seconds(text: &str) -> Result<f64, String> {
    match text.parse::<f64>() {
        Ok(number) if (0.001..=1e6).contains(&number) => Ok(number),
        _ => Err("not a number of seconds from 0.001 to 1,000,000".to_string()),
    }
}

fn part(text: &str) -> Result<f64, String> {
    match text.parse::<f64>() {
        Ok(number) if (0.0..=1.0).contains(&number) => Ok(number),
        _ => Err("not a part from 0 to 1".to_string()),
    }
}

fn corners(text: &str) -> Result<[[f32; 3]; 2], String> {
    let numbers: Vec<f32> = text.split(',').map(|word| finite(word.trim())).collect::<Result<_, _>>()?;
    let [a, b, c, d, e, f] = numbers[..] else { return Err("six numbers are wanted, two corners".to_string()) };
    let [low, high] = [[a, b, c], [d, e, f]];
    let (low, high) = ([0, 1, 2].map(|i| low[i].min(high[i])), [0, 1, 2].map(|i| low[i].max(high[i])));
    Ok([low, high])
}

impl OutWords {
    /// The folder or the one file that is meant.
    pub fn check(&self, files: usize) -> Result<(), Failure> {
        match (&self.output, &self.out_dir) {
            (None, None) => Err(Failure::new("-o FILE or --out-dir FOLDER is missing: where should the result go?")),
            (Some(_), None) if files > 1 => {
                Err(Failure::new("-o takes one file's result; --out-dir FOLDER takes many"))
            }
            _ => Ok(()),
        }
    }
}
