//! The picture at the head of the page, as SVG: our time over the peers', by length, a panel for each mode.

use crate::table::{grouped, rounded};

/// What a panel shows: a line for each peer, with a gap where the peer does not take the length.
pub struct Panel {
    pub title: &'static str,
    pub lines: [Vec<Option<f64>>; 2],
}

/// Right and down from the upper left corner, in pixels.
type Point = (f64, f64);

const TITLE: &str = "Kinphlor's time over the peers', sealing under a key of 32 bytes";
const SUBTITLE: &str = "A panel for each choice of the instructions that the peers may use. Kinphlor's code is the same in all.";

/// The peers' names and colours.
const PEERS: [(&str, &str); 2] = [("OpenSSL", "#0067a5"), ("libgcrypt", "#c24e00")];

const INK: &str = "#24292f";
const FAINT: &str = "#57606a";
const GRID: &str = "#e1e4e8";

/// The margins, a panel's width, the gap between two, and an octave: a factor of two on the vertical axis.
const LEFT: f64 = 66.0;
const RIGHT: f64 = 16.0;
const TOP: f64 = 88.0;
const BOTTOM: f64 = 54.0;
const PANEL: f64 = 280.0;
const GAP: f64 = 14.0;
const OCTAVE: f64 = 46.0;

/// The octaves left free below the smallest ratio and above the largest, for values and names.
const BELOW: f64 = 0.6;
const ABOVE: f64 = 0.8;

/// How far a value's middle is from its point, to the side and up or down, and from the line at 1.
const ASIDE: f64 = 18.0;
const APART: f64 = 13.0;
const CLEAR: f64 = 9.0;

/// What is to be seen, in words.
pub fn words(panels: &[Panel]) -> String {
    let ends = |line: &[Option<f64>]| {
        let known: Vec<String> = line.iter().flatten().map(|&ratio| rounded(ratio)).collect();
        known.first().zip(known.last()).map_or(String::new(), |(first, last)| format!("{first} to {last}"))
    };
    let panels = panels.iter().map(|panel| {
        let [openssl, libgcrypt] = [0, 1].map(|peer| ends(&panel.lines[peer]));
        format!("{}: OpenSSL {openssl}, libgcrypt {libgcrypt}", panel.title)
    });
    let what = "Kinphlor's time to seal over the peers', by plaintext length; below 1, Kinphlor is faster.";
    format!("{what}\nFrom the shortest plaintext to the longest:\n{}.", panels.collect::<Vec<_>>().join(";\n"))
}

/// The whole picture.
pub fn draw(lens: &[usize], panels: &[Panel]) -> String {
    let axis = Axis::over(panels);
    let count = panels.len() as f64;
    let (width, height) = (LEFT + count * (PANEL + GAP) - GAP + RIGHT, (axis.y_of(axis.low) + BOTTOM).round());
    let mut svg = format!(
        "<svg xmlns=\"http://www.w3.org/2000/svg\" viewBox=\"0 0 {width} {height}\" width=\"{width}\" height=\"{height}\"\n  \
         role=\"img\" aria-labelledby=\"title desc\" font-family=\"Helvetica, Arial, sans-serif\" font-size=\"11\"\n  \
         fill=\"{INK}\" text-anchor=\"middle\">\n<title id=\"title\">{TITLE}</title>\n<desc id=\"desc\">{}</desc>\n\
         <rect width=\"{width}\" height=\"{height}\" rx=\"6\" fill=\"#fff\"/>\n",
        words(panels)
    );
    svg += &text((LEFT, 28.0), "font-size=\"16\" font-weight=\"bold\" text-anchor=\"start\"", TITLE);
    svg += &text((LEFT, 48.0), &format!("font-size=\"12\" fill=\"{FAINT}\" text-anchor=\"start\""), SUBTITLE);
    let middle = (LEFT + width - RIGHT) / 2.0;
    svg += &text((middle, height - 14.0), &format!("font-size=\"12\" fill=\"{FAINT}\""), "bytes of plaintext");
    svg += &axis.draw();
    for (i, panel) in panels.iter().enumerate() {
        svg += &panel.draw(LEFT + i as f64 * (PANEL + GAP), lens, &axis);
    }
    let at_one = (width - RIGHT, axis.y(1.0) + 14.0);
    svg += &text(at_one, &format!("fill=\"{FAINT}\" text-anchor=\"end\""), "1: as fast as the peer");
    svg + "</svg>\n"
}

/// The vertical axis, by logarithms to base two.
struct Axis {
    low: f64,
    high: f64,
}

impl Axis {
    /// An axis with room for all ratios, and for 1.
    fn over(panels: &[Panel]) -> Axis {
        let logs: Vec<f64> = panels.iter().flat_map(|panel| panel.lines.iter().flatten().flatten()).map(|r| r.log2()).collect();
        let least = logs.iter().copied().fold(0.0, f64::min);
        let most = logs.iter().copied().fold(0.0, f64::max);
        Axis { low: least - BELOW, high: most + ABOVE }
    }

    fn y_of(&self, log: f64) -> f64 {
        TOP + (self.high - log) * OCTAVE
    }

    fn y(&self, ratio: f64) -> f64 {
        self.y_of(ratio.log2())
    }

    /// The powers of two on the axis.
    fn ticks(&self) -> impl Iterator<Item = f64> {
        (self.low.ceil() as i32..=self.high.floor() as i32).map(|power| 2f64.powi(power))
    }

    /// The numbers at the left, and which side of 1 is which.
    fn draw(&self) -> String {
        let mut svg = String::new();
        for tick in self.ticks() {
            let weight = if tick == 1.0 { "bold" } else { "normal" };
            let how = format!("font-weight=\"{weight}\" text-anchor=\"end\"");
            svg += &text((LEFT - 8.0, self.y(tick) + 4.0), &how, &tick.to_string());
        }
        for (anchor, away, side) in [("start", -10.0, "Kinphlor slower →"), ("end", 10.0, "← Kinphlor faster")] {
            let (x, y) = (LEFT - 44.0, self.y(1.0) + away);
            let how = format!("fill=\"{FAINT}\" text-anchor=\"{anchor}\" transform=\"rotate(-90 {x:.1} {y:.1})\"");
            svg += &text((x, y), &how, side);
        }
        svg
    }
}

impl Panel {
    /// Texts come before lines, so that the white around a text covers the grid and no line.
    fn draw(&self, left: f64, lens: &[usize], axis: &Axis) -> String {
        let x = |i: usize| left + (i as f64 + 0.5) * PANEL / lens.len() as f64;
        let mut svg = text((left + PANEL / 2.0, TOP - 8.0), "font-size=\"12.5\" font-weight=\"bold\"", self.title);
        for tick in axis.ticks() {
            let stroke = if tick == 1.0 { (INK, 2.0) } else { (GRID, 1.0) };
            svg += &path(&[(left, axis.y(tick)), (left + PANEL, axis.y(tick))], stroke);
        }
        for (i, &len) in lens.iter().enumerate() {
            svg += &text((x(i), axis.y_of(axis.low) + 16.0), "font-size=\"10\"", &short(len));
        }
        let points = [0, 1].map(|peer| -> Vec<Option<Point>> {
            self.lines[peer].iter().enumerate().map(|(i, ratio)| ratio.map(|ratio| (x(i), axis.y(ratio)))).collect()
        });
        for (peer, (name, colour)) in PEERS.into_iter().enumerate() {
            svg += &format!("<g fill=\"{colour}\" stroke=\"#fff\" stroke-width=\"3\" paint-order=\"stroke\">\n");
            let (line, other) = (&points[peer], &points[1 - peer]);
            for (i, ratio) in self.lines[peer].iter().enumerate() {
                let (Some(ratio), Some(point)) = (ratio, line[i]) else { continue };
                let upper = other[i].is_none_or(|(_, y)| (point.1, peer) < (y, 1 - peer));
                let (x, y) = beside(line, i, point, upper);
                svg += &text((x, clear(y, axis.y(1.0)) + 4.0), "", &rounded(*ratio));
            }
            svg += &named(name, line, other);
            svg += "</g>\n";
        }
        for (peer, (_, colour)) in PEERS.into_iter().enumerate() {
            for piece in points[peer].split(|point| point.is_none()) {
                svg += &path(&piece.iter().flatten().copied().collect::<Vec<Point>>(), (colour, 2.0));
            }
            for point in points[peer].iter().flatten() {
                svg += &mark(peer, *point, colour);
            }
        }
        svg
    }
}

/// The middle of a value: at a right angle to the line's direction at its point, above the line or below it.
fn beside(line: &[Option<Point>], i: usize, point: Point, upper: bool) -> Point {
    let before = i.checked_sub(1).and_then(|i| line[i]).unwrap_or(point);
    let after = line.get(i + 1).copied().flatten().unwrap_or(point);
    let direction = (after.1 - before.1).atan2(after.0 - before.0);
    let side = if upper { -1.0 } else { 1.0 };
    (point.0 - side * ASIDE * direction.sin(), point.1 + side * APART * direction.cos())
}

/// The height of a value, moved off the line at 1.
fn clear(y: f64, line: f64) -> f64 {
    if y < line { y.min(line - CLEAR) } else { y.max(line + CLEAR) }
}

/// A peer's name at the end of its line, beyond the values of the last three points.
fn named(name: &str, line: &[Option<Point>], other: &[Option<Point>]) -> String {
    let end = |line: &[Option<Point>]| line.iter().rev().take(3).flatten().copied().collect::<Vec<Point>>();
    let heights = |line: &[Option<Point>]| end(line).into_iter().map(|(_, y)| y).collect::<Vec<f64>>();
    let (ours, theirs) = (heights(line), heights(other));
    let y = match ours.first() < theirs.first() {
        true => ours.into_iter().fold(f64::MAX, f64::min) - 23.0,
        false => ours.into_iter().fold(0.0, f64::max) + 31.0,
    };
    end(line).get(1).map_or(String::new(), |&(x, _)| text((x, y), "font-size=\"13\" font-weight=\"bold\"", name))
}

/// A point: round for one peer and square for the other, so that they differ without colour too.
fn mark(peer: usize, (x, y): Point, colour: &str) -> String {
    match peer {
        0 => format!("<circle cx=\"{x:.1}\" cy=\"{y:.1}\" r=\"3.4\" fill=\"{colour}\"/>\n"),
        _ => format!("<rect x=\"{:.1}\" y=\"{:.1}\" width=\"6\" height=\"6\" fill=\"{colour}\"/>\n", x - 3.0, y - 3.0),
    }
}

fn path(points: &[Point], (colour, width): (&str, f64)) -> String {
    let points: Vec<String> = points.iter().map(|(x, y)| format!("{x:.1},{y:.1}")).collect();
    format!("<polyline points=\"{}\" fill=\"none\" stroke=\"{colour}\" stroke-width=\"{width}\"/>\n", points.join(" "))
}

/// Text without a character that XML reserves.
fn text((x, y): Point, how: &str, text: &str) -> String {
    format!("<text x=\"{x:.1}\" y=\"{y:.1}\" {how}>{text}</text>\n").replace(" >", ">")
}

/// A length that fits between its neighbours: 16384 as 16 KiB.
fn short(len: usize) -> String {
    match len {
        n if n > 0 && n % (1 << 20) == 0 => format!("{} MiB", n >> 20),
        n if n > 0 && n % (1 << 10) == 0 => format!("{} KiB", n >> 10),
        n => grouped(n as u64),
    }
}
