//! A plot of time against size, both axes marked, time on a logarithmic scale.

use std::fmt::Write;

pub struct Line {
    pub name: String,
    pub colour: &'static str,
    pub dashed: bool,
    /// Size and nanoseconds.
    pub points: Vec<(usize, f64)>,
}

const WIDTH: f64 = 760.0;
const HEIGHT: f64 = 480.0;
const LEFT: f64 = 70.0;
const RIGHT: f64 = 190.0;
const TOP: f64 = 20.0;
const BOTTOM: f64 = 45.0;
/// The scale of time: from 1 us to 100 s.
const LOWEST: f64 = 3.0;
const HIGHEST: f64 = 11.0;
const LARGEST: f64 = 60.0;

fn x(size: usize) -> f64 {
    LEFT + (WIDTH - LEFT - RIGHT) * size as f64 / LARGEST
}

fn y(nanoseconds: f64) -> f64 {
    TOP + (HEIGHT - TOP - BOTTOM) * (HIGHEST - nanoseconds.log10()) / (HIGHEST - LOWEST)
}

fn axes(svg: &mut String) {
    let names = ["1 us", "10 us", "100 us", "1 ms", "10 ms", "100 ms", "1 s", "10 s", "100 s"];
    for (k, name) in names.iter().enumerate() {
        let at = y(10f64.powf(LOWEST + k as f64));
        let end = WIDTH - RIGHT;
        let _ = writeln!(svg, "<line x1='{LEFT}' y1='{at:.1}' x2='{end}' y2='{at:.1}' stroke='#ddd'/>");
        let _ = writeln!(svg, "<text x='{}' y='{:.1}' text-anchor='end'>{name}</text>", LEFT - 8.0, at + 4.0);
    }
    for size in (0..=60).step_by(10) {
        let at = x(size);
        let _ = writeln!(svg, "<text x='{at:.1}' y='{}' text-anchor='middle'>{size}</text>", HEIGHT - BOTTOM + 18.0);
    }
    let middle = (LEFT + WIDTH - RIGHT) / 2.0;
    let _ = writeln!(svg, "<text x='{middle}' y='{}' text-anchor='middle'>monomials</text>", HEIGHT - 8.0);
}

fn drawn(svg: &mut String, line: &Line) {
    let points: Vec<String> =
        line.points.iter().map(|&(size, time)| format!("{:.1},{:.1}", x(size), y(time))).collect();
    let dash = if line.dashed { " stroke-dasharray='5 4'" } else { "" };
    let colour = line.colour;
    let _ = writeln!(
        svg,
        "<polyline fill='none' stroke='{colour}' stroke-width='1.6'{dash} points='{}'/>",
        points.join(" ")
    );
}

fn legend(svg: &mut String, k: usize, line: &Line) {
    let (at, start) = (TOP + 14.0 + 20.0 * k as f64, WIDTH - RIGHT + 14.0);
    let dash = if line.dashed { " stroke-dasharray='5 4'" } else { "" };
    let (colour, end) = (line.colour, start + 26.0);
    let _ =
        writeln!(svg, "<line x1='{start}' y1='{at}' x2='{end}' y2='{at}' stroke='{colour}' stroke-width='1.6'{dash}/>");
    let _ = writeln!(svg, "<text x='{}' y='{}'>{}</text>", end + 6.0, at + 4.0, line.name);
}

pub fn svg(lines: &[Line]) -> String {
    let mut svg = format!("<svg xmlns='http://www.w3.org/2000/svg' viewBox='0 0 {WIDTH} {HEIGHT}' font-family='sans-serif' font-size='12'>\n");
    let _ = writeln!(svg, "<rect width='{WIDTH}' height='{HEIGHT}' fill='white'/>");
    axes(&mut svg);
    for (k, line) in lines.iter().enumerate() {
        drawn(&mut svg, line);
        legend(&mut svg, k, line);
    }
    svg + "</svg>\n"
}
