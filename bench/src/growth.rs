//! What a call costs as the image grows, as lines.

use crate::report::time;
use crate::timing::Compared;

/// One call at images of several sizes: the blocks taken, and the times.
pub struct Growth {
    pub name: &'static str,
    pub at: Vec<(u64, Compared)>,
}

// The plot: blocks across and time upwards, both from 0 and in even steps, so that a cost that grows with the image is a straight line.
const LEFT: f64 = 70.0;
const WIDE: f64 = 520.0;
const TOP: f64 = 48.0;
const HIGH: f64 = 300.0;
const STEPS: u32 = 4;
const COLOURS: [&str; 2] = ["#3366aa", "#aa6633"];

struct Scale {
    blocks: f64,
    nanoseconds: f64,
}

impl Scale {
    /// The largest image, and the longest time rounded up to a number with one digit that counts.
    fn of(growths: &[Growth]) -> Scale {
        let points = || growths.iter().flat_map(|growth| &growth.at);
        let blocks = points().map(|point| point.0 as f64).fold(1.0, f64::max);
        let longest = points().map(|(_, both)| both.proved.median.max(both.plain.median)).fold(1.0, f64::max);
        let digit = 10f64.powf(longest.log10().floor());
        Scale { blocks, nanoseconds: (longest / digit).ceil() * digit }
    }

    fn place(&self, blocks: f64, nanoseconds: f64) -> (f64, f64) {
        (LEFT + WIDE * blocks / self.blocks, TOP + HIGH - HIGH * nanoseconds / self.nanoseconds)
    }
}

fn grid(scale: &Scale) -> Vec<String> {
    let mut lines = Vec::new();
    for step in 0..=STEPS {
        let share = f64::from(step) / f64::from(STEPS);
        let (x, y) = scale.place(share * scale.blocks, share * scale.nanoseconds);
        let (right, bottom) = (LEFT + WIDE, TOP + HIGH);
        lines.push(format!(r##"<line x1="{x:.1}" y1="{TOP:.1}" x2="{x:.1}" y2="{bottom:.1}" stroke="#cccccc"/>"##));
        lines.push(format!(r##"<line x1="{LEFT:.1}" y1="{y:.1}" x2="{right:.1}" y2="{y:.1}" stroke="#cccccc"/>"##));
        let (blocks, most) = (share * scale.blocks, time(share * scale.nanoseconds));
        lines.push(format!(
            r##"<text x="{x:.1}" y="{:.1}" text-anchor="middle" fill="#444444">{blocks:.0}</text>"##,
            bottom + 18.0
        ));
        lines.push(format!(
            r##"<text x="{:.1}" y="{:.1}" text-anchor="end" fill="#444444">{most}</text>"##,
            LEFT - 8.0,
            y + 4.5
        ));
    }
    lines
}

/// One manager's times: a line through them, and its name at the end.
fn drawn(scale: &Scale, name: &str, colour: &str, dash: &str, times: &[(u64, f64)]) -> Vec<String> {
    let places: Vec<(f64, f64)> = times.iter().map(|(blocks, time)| scale.place(*blocks as f64, *time)).collect();
    let points: Vec<String> = places.iter().map(|(x, y)| format!("{x:.1},{y:.1}")).collect();
    let points = points.join(" ");
    let mut lines =
        vec![format!(r##"<polyline points="{points}" fill="none" stroke="{colour}" stroke-width="2"{dash}/>"##)];
    lines.extend(places.iter().map(|(x, y)| format!(r##"<circle cx="{x:.1}" cy="{y:.1}" r="3.5" fill="{colour}"/>"##)));
    if let Some((x, y)) = places.last() {
        lines.push(format!(r##"<text x="{:.1}" y="{:.1}" fill="{colour}">{name}</text>"##, x + 8.0, y + 4.5));
    }
    lines
}

/// The times as a picture: a colour for each call, the proved one's line whole and the plain one's broken.
pub fn plot(growths: &[Growth]) -> String {
    let scale = Scale::of(growths);
    let mut lines = vec![
        r##"<svg xmlns="http://www.w3.org/2000/svg" width="760" height="384" viewBox="0 0 760 384" font-family="sans-serif" font-size="13">"##.to_string(),
        r##"<rect width="100%" height="100%" fill="#ffffff"/>"##.to_string(),
        r##"<text x="16" y="24" font-size="15">Time of a call by the blocks taken, at HOUSE</text>"##.to_string(),
    ];
    lines.extend(grid(&scale));
    for (Growth { name, at }, colour) in growths.iter().zip(COLOURS.iter().cycle()) {
        let proved: Vec<(u64, f64)> = at.iter().map(|(blocks, both)| (*blocks, both.proved.median)).collect();
        let plain: Vec<(u64, f64)> = at.iter().map(|(blocks, both)| (*blocks, both.plain.median)).collect();
        lines.extend(drawn(&scale, &format!("{name}, proved"), colour, "", &proved));
        lines.extend(drawn(&scale, &format!("{name}, plain"), colour, r##" stroke-dasharray="6 4""##, &plain));
    }
    lines.push("</svg>\n".to_string());
    lines.join("\n")
}
