//! The table of peers as text, and as a picture (SVG).

use std::fmt::Write;

/// The first line of the table.
pub const HEADING: &str = "nanoseconds a MAC of the anchor by gcc -O3, a product";

/// What is beside gcc in the table: the column's name, that in the picture and its class there.
const PEERS: [(&str, &str, &str); 7] = [
    ("clang", "clang -O3", "clang"),
    ("qemu-riscv64", "qemu-riscv64", "riscv"),
    ("valgrind", "valgrind, none", "none"),
    ("memcheck", "valgrind, memcheck", "memcheck"),
    ("MLEN 4096", "Bodlarina, MLEN 4,096", "large"),
    ("MLEN 65536", "Bodlarina, MLEN 65,536", "larger"),
    ("MLEN 128", "Bodlarina, MLEN 128", "small"),
];

/// A line of the table: nanoseconds a MAC by gcc, and the multiples of it that the peers take.
pub struct Figures {
    pub name: String,
    pub gcc: f64,
    pub times: [Option<f64>; PEERS.len()],
    pub same: bool,
}

impl Figures {
    /// The table's line of columns.
    pub fn columns() -> String {
        let peers: String = PEERS.iter().map(|(name, ..)| format!("{name:>14}")).collect();
        format!("{:14}{:>8}{peers}{:>8}", "", "gcc", "same C")
    }

    pub fn line(&self) -> String {
        let time = |time: &Option<f64>| match time {
            Some(time) => format!("{time:>14.2}"),
            None => format!("{:>14}", "-"),
        };
        let times: String = self.times.iter().map(time).collect();
        let same = if self.same { "yes" } else { "NO" };
        format!("{:14}{:>8.3}{times}{same:>8}", self.name, self.gcc)
    }

    /// A line of the table read back.
    fn read(line: &str) -> Option<Figures> {
        let (name, numbers) = line.split_at_checked(14)?;
        let mut words = numbers.split_whitespace();
        let gcc = words.next()?.parse().ok()?;
        let mut times = [None; PEERS.len()];
        for time in &mut times {
            *time = match words.next()? {
                "-" => None,
                word => Some(word.parse().ok().filter(|&time: &f64| time > 0.0)?),
            };
        }
        let same = words.next()? == "yes";
        Some(Figures { name: name.trim().to_string(), gcc, times, same })
    }

    /// The lines of the table in a text that has it, as the benchmark's output and its page do.
    pub fn table(text: &str) -> Result<Vec<Figures>, String> {
        let columns = Figures::columns();
        let mut lines = text.lines().skip_while(|line| !line.starts_with(HEADING));
        lines.find(|line| *line == columns).ok_or("no table of peers")?;
        let rows = lines.take_while(|line| !line.trim().is_empty() && !line.starts_with("```"));
        let read = |line| Figures::read(line).ok_or(format!("not a line of the table: {line}"));
        let table: Vec<Figures> = rows.map(read).collect::<Result<_, _>>()?;
        if table.is_empty() {
            return Err("the table of peers is empty".to_string());
        }
        Ok(table)
    }
}

/// The order of bars in a format, by places of PEERS: the library first.
const ORDER: [usize; PEERS.len()] = [5, 4, 6, 0, 2, 1, 3];

const WIDTH: f64 = 480.0;
/// Where the bars of all formats begin, and the height of a bar and of a format.
const TOP: f64 = 182.0;
const BAR: f64 = 13.0;
const FORMAT: f64 = 14.0 + BAR * PEERS.len() as f64;
/// The plot from left to right, between the formats' names and room for a number.
const LEFT: f64 = 104.0;
const RIGHT: f64 = 436.0;

const STYLE: &str = "
svg { font-family: system-ui, 'DejaVu Sans', sans-serif; font-size: 13px }
text { fill: #1b1f24 } .title { font-size: 16px; font-weight: bold } .number { font-size: 11px }
.paper { fill: #ffffff } .grid { stroke: #d0d7de } .gcc { stroke: #1b1f24; stroke-width: 1.5 }
.larger { fill: #0a4ea3 } .large { fill: #2f81f7 } .small { fill: #7db8ff }
.clang { fill: #d9730d } .none { fill: #b08fd8 } .riscv { fill: #4f9d69 } .memcheck { fill: #7a4fb5 }
@media (prefers-color-scheme: dark) {
text { fill: #e6edf3 } .paper { fill: #0d1117 } .grid { stroke: #30363d } .gcc { stroke: #e6edf3 }
.larger { fill: #2f6fd0 } .large { fill: #58a6ff } .small { fill: #a9d1ff }
.clang { fill: #f0883e } .none { fill: #c9b0ea } .riscv { fill: #6cc48b } .memcheck { fill: #9a6fd8 } }
";

const NOTES: [&str; 3] = [
    "Logarithmic scale; products of 128 in each size.",
    "RLEN is 512, with MLEN 128 it is 64; there 64 to 64 bits",
    "are on MLEN 256, RLEN 128.",
];

/// The multiples that the scale names; the longest scales have powers of ten alone.
const TICKS: [f64; 13] =
    [0.1, 0.2, 0.5, 1.0, 2.0, 5.0, 10.0, 20.0, 50.0, 100.0, 200.0, 500.0, 1000.0];
const TENS: [f64; 5] = [0.1, 1.0, 10.0, 100.0, 1000.0];
const LONGEST: f64 = 1000.0;

/// Those of a list around all bars, and around 1.
fn around(table: &[Figures], ticks: &[f64]) -> Vec<f64> {
    let times = || table.iter().flat_map(|line| line.times).flatten();
    let least = times().fold(0.9, f64::min);
    let most = times().fold(1.1, f64::max);
    let first = ticks.iter().rposition(|&tick| tick <= least).unwrap_or(0);
    let last = ticks.iter().position(|&tick| tick >= most).unwrap_or(ticks.len() - 1);
    ticks[first..=last].to_vec()
}

fn ticks(table: &[Figures]) -> Vec<f64> {
    let ticks = around(table, &TICKS);
    match ticks[ticks.len() - 1] / ticks[0] > LONGEST {
        true => around(table, &TENS),
        false => ticks,
    }
}

/// The picture of a table: for each format a bar for each peer, from gcc's time to its own, on a
/// logarithmic scale.
pub fn picture(table: &[Figures]) -> String {
    let ticks = ticks(table);
    let (least, most) = (ticks[0], ticks[ticks.len() - 1]);
    let x = |time: f64| {
        let time = time.clamp(least, most);
        LEFT + (RIGHT - LEFT) * (time / least).ln() / (most / least).ln()
    };
    let bottom = TOP + FORMAT * table.len() as f64;
    let mut svg = String::new();
    let mut put = |line: String| writeln!(svg, "{line}").expect("a string takes every line");
    let height = bottom + 83.0;
    put(format!(
        r#"<svg xmlns="http://www.w3.org/2000/svg" viewBox="0 0 {WIDTH} {height}" role="img">"#
    ));
    put("<title>Products: time as a multiple of gcc's, by format and machine</title>".to_string());
    put(format!("<style>{STYLE}</style>"));
    put(format!(r#"<rect class="paper" width="{WIDTH}" height="{height}"/>"#));
    let text = |x: f64, y: f64, class: &str, anchor: &str, said: &str| {
        format!(
            r#"<text class="{class}" x="{x:.1}" y="{y:.1}" text-anchor="{anchor}">{said}</text>"#
        )
    };
    put(text(12.0, 26.0, "title", "start", "Products: time as a multiple of gcc's"));
    put(text(12.0, 46.0, "", "start", "Left of the line: faster than gcc -O3; right: slower."));
    put(text(12.0, 63.0, "", "start", "The further left a bar ends, the better."));
    for (place, &peer) in ORDER.iter().enumerate() {
        let (column, row) = ((place / 4) as f64, (place % 4) as f64);
        let (at, y) = (12.0 + 236.0 * column, 90.0 + 19.0 * row);
        let (_, name, class) = PEERS[peer];
        put(format!(
            r#"<rect class="{class}" x="{at}" y="{:.1}" width="12" height="12"/>"#,
            y - 10.5
        ));
        put(text(at + 19.0, y, "", "start", name));
    }
    for tick in ticks {
        let class = if tick == 1.0 { "gcc" } else { "grid" };
        let at = x(tick);
        put(format!(
            r#"<line class="{class}" x1="{at:.1}" x2="{at:.1}" y1="{:.1}" y2="{bottom:.1}"/>"#,
            TOP - 6.0
        ));
        let name = if tick == 1.0 { "gcc".to_string() } else { tick.to_string() };
        put(text(at, TOP - 11.0, "", "middle", &name));
        put(text(at, bottom + 16.0, "", "middle", &name));
    }
    for (row, said) in NOTES.iter().enumerate() {
        put(text(12.0, bottom + 38.0 + 17.0 * row as f64, "", "start", said));
    }
    for (place, line) in table.iter().enumerate() {
        let top = TOP + FORMAT * place as f64 + 7.0;
        let middle = top + BAR * PEERS.len() as f64 / 2.0;
        put(text(12.0, middle + 4.5, "", "start", line.name.trim_end_matches(" bits")));
        for (row, &peer) in ORDER.iter().enumerate() {
            let Some(time) = line.times[peer] else { continue };
            let y = top + BAR * row as f64;
            let (from, to) = (x(1.0).min(x(time)), x(1.0).max(x(time)));
            put(format!(
                r#"<rect class="{}" x="{from:.1}" y="{:.1}" width="{:.1}" height="{}"/>"#,
                PEERS[peer].2,
                y + 1.0,
                (to - from).max(1.0),
                BAR - 2.0
            ));
            let (at, anchor) = if time < 1.0 { (from - 4.0, "end") } else { (to + 4.0, "start") };
            let number = match time {
                ..9.95 => format!("{time:.2}"),
                ..99.95 => format!("{time:.1}"),
                _ => format!("{time:.0}"),
            };
            put(text(at, y + BAR - 2.8, "number", anchor, &number));
        }
    }
    put("</svg>".to_string());
    svg
}

/// Writes the picture of the table that a text has to a file.
pub fn draw(text: &str, file: &str) -> Result<(), String> {
    let table = Figures::table(text)?;
    std::fs::write(file, picture(&table)).map_err(|error| format!("{file}: {error}"))
}
