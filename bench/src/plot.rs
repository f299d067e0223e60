//! The growth as a picture: a panel for each call, both axes logarithmic.

use crate::growth::{Curve, SIZES};
use crate::rows::Row;

const WIDTH: f64 = 850.0;
const HEIGHT: f64 = 560.0;
const PANEL: (f64, f64) = (205.0, 190.0);

/// The powers of ten that the time axis goes through.
const DECADES: (i32, i32) = (0, 5);

struct Line {
    name: &'static str,
    colour: &'static str,
    time: fn(&Row) -> Option<f64>,
}

const LINES: [Line; 3] = [
    Line {
        name: "Wispbundle",
        colour: "#0b6e4f",
        time: |row| Some(row.ours),
    },
    Line {
        name: "the Rust",
        colour: "#c2501a",
        time: |row| row.rust,
    },
    Line {
        name: "memcpy",
        colour: "#6b6b6b",
        time: |row| Some(row.copy),
    },
];

fn x_of(bytes: f64) -> f64 {
    let (least, most) = (100_f64.log10(), 100_000_f64.log10());
    (bytes.log10() - least) / (most - least) * PANEL.0
}

fn y_of(ns: f64) -> f64 {
    let (least, most) = (f64::from(DECADES.0), f64::from(DECADES.1));
    PANEL.1 - (ns.log10() - least) / (most - least) * PANEL.1
}

fn text(x: f64, y: f64, anchor: &str, extra: &str, words: &str) -> String {
    format!("<text x=\"{x:.1}\" y=\"{y:.1}\" text-anchor=\"{anchor}\"{extra}>{words}</text>\n")
}

fn mark(line: usize, x: f64, y: f64) -> String {
    let colour = LINES[line].colour;
    match line {
        0 => format!("<circle cx=\"{x:.1}\" cy=\"{y:.1}\" r=\"3.5\" fill=\"{colour}\"/>\n"),
        1 => {
            let (left, top) = (x - 3.2, y - 3.2);
            format!(
                "<rect x=\"{left:.1}\" y=\"{top:.1}\" width=\"6.4\" height=\"6.4\" fill=\"{colour}\"/>\n"
            )
        }
        _ => {
            let (l, r, top, low) = (x - 4.0, x + 4.0, y - 4.0, y + 3.0);
            format!(
                "<path d=\"M{l:.1} {low:.1}L{r:.1} {low:.1}L{x:.1} {top:.1}Z\" fill=\"{colour}\"/>\n"
            )
        }
    }
}

fn stroke(line: usize, points: &str) -> String {
    let colour = LINES[line].colour;
    format!(
        "<polyline points=\"{points}\" fill=\"none\" stroke=\"{colour}\" stroke-width=\"1.8\"/>\n"
    )
}

fn axes() -> String {
    let mut svg = String::new();
    for (bytes, words) in [
        (100.0, "100"),
        (1000.0, "1,000"),
        (10_000.0, "10,000"),
        (100_000.0, "100,000"),
    ] {
        let (x, low) = (x_of(bytes), PANEL.1);
        svg += &format!("<path d=\"M{x:.1} 0V{low}\" stroke=\"#dddddd\"/>\n");
        svg += &text(x, low + 15.0, "middle", "", words);
    }
    for (decade, words) in
        (DECADES.0..=DECADES.1).zip(["1 ns", "10 ns", "100 ns", "1 µs", "10 µs", "100 µs"])
    {
        let (y, right) = (y_of(10_f64.powi(decade)), PANEL.0);
        svg += &format!("<path d=\"M0 {y:.1}H{right}\" stroke=\"#dddddd\"/>\n");
        svg += &text(-6.0, y + 4.0, "end", "", words);
    }
    let (w, h) = PANEL;
    svg + &format!("<rect width=\"{w}\" height=\"{h}\" fill=\"none\" stroke=\"#444444\"/>\n")
}

fn panel(curve: &Curve, left: f64, top: f64) -> String {
    let mut svg = format!("<g transform=\"translate({left} {top})\">\n") + &axes();
    svg += &text(
        PANEL.0 / 2.0,
        -8.0,
        "middle",
        " font-weight=\"bold\" font-size=\"14\"",
        curve.name,
    );
    svg += &text(PANEL.0 / 2.0, PANEL.1 + 31.0, "middle", "", "bytes");
    let turned = format!(" transform=\"rotate(-90 -48 {0})\"", PANEL.1 / 2.0);
    svg += &text(-48.0, PANEL.1 / 2.0, "middle", &turned, "time of a call");
    for (i, line) in LINES.iter().enumerate() {
        let timed = curve.rows.iter().zip(SIZES);
        let points: Vec<_> = timed
            .filter_map(|(row, n)| Some((x_of(n as f64), y_of((line.time)(row)?))))
            .collect();
        let joined: Vec<_> = points
            .iter()
            .map(|(x, y)| format!("{x:.1},{y:.1}"))
            .collect();
        svg += &stroke(i, &joined.join(" "));
        svg.extend(points.iter().map(|&(x, y)| mark(i, x, y)));
    }
    svg + "</g>\n"
}

fn legend(left: f64, top: f64, machine: &str) -> String {
    let mut svg = format!("<g transform=\"translate({left} {top})\" font-size=\"14\">\n");
    for (i, line) in LINES.iter().enumerate() {
        let y = 14.0 + 26.0 * i as f64;
        svg += &stroke(i, &format!("0,{y} 36,{y}"));
        svg += &mark(i, 18.0, y);
        svg += &text(46.0, y + 5.0, "start", "", line.name);
    }
    let notes = [
        "Time of one call, best of many;",
        "both axes are logarithmic.",
        "The Rust neither takes nor checks.",
    ];
    for (i, note) in notes.into_iter().chain(machine.split(", ")).enumerate() {
        let y = 108.0 + 16.0 * i as f64;
        svg += &text(0.0, y, "start", " font-size=\"12\"", note);
    }
    svg + "</g>\n"
}

pub fn drawn(curves: &[Curve], machine: &str) -> String {
    let mut svg = format!(
        "<svg xmlns=\"http://www.w3.org/2000/svg\" viewBox=\"0 0 {WIDTH} {HEIGHT}\" \
         font-family=\"sans-serif\" font-size=\"11\" fill=\"#222222\">\n\
         <title>Time of a call by the bytes it works on</title>\n\
         <rect width=\"{WIDTH}\" height=\"{HEIGHT}\" fill=\"#ffffff\"/>\n"
    );
    let place = |i: usize| (64.0 + 272.0 * (i % 3) as f64, 32.0 + 275.0 * (i / 3) as f64);
    for (i, curve) in curves.iter().enumerate() {
        let (left, top) = place(i);
        svg += &panel(curve, left, top);
    }
    let (left, top) = place(curves.len());
    svg + &legend(left - 16.0, top, machine) + "</svg>\n"
}
