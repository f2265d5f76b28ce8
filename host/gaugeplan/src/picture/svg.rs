//! Pieces of SVG.

use crate::dependence::Link;

/// Sizes of letters.
pub const BODY: f64 = 12.0;
pub const SMALL: f64 = 11.0;

const STYLE: &str = "\
text{font-family:Helvetica,Arial,'Liberation Sans','DejaVu Sans',sans-serif;font-size:12px;fill:#111}
.title{font-size:16px;font-weight:bold}.heading{font-weight:bold}.small{font-size:11px}
.jobnumber{text-anchor:end;font-weight:bold}.end{text-anchor:end}.changed{font-weight:bold}
.number{text-anchor:middle;font-size:10px;fill:#444}.column{font-size:11px;fill:#444}.small-arrow{fill:none;stroke:#555}
.band{fill:#f3f4f6}.frame{fill:none;stroke:#999}.grid{fill:none;stroke:#d4d4d8}
.own{fill:#1f4e79;stroke:#12304c}.onown{text-anchor:middle;font-size:11px;fill:#fff}
.kept{fill:url(#kept);stroke:#176b3a;stroke-width:1.2}.open{fill:url(#open);stroke:#444;stroke-width:1.2}
.lost{fill:#fdf1ee;stroke:#a1260d;stroke-width:1.2;stroke-dasharray:4 2}
.onguess{text-anchor:middle;font-size:11px;stroke:#fff;stroke-width:4px;paint-order:stroke;stroke-linejoin:round}
.mark0{fill:#fff;stroke:#111;stroke-width:1.4}.mark1{fill:#111;stroke:#111;stroke-width:1.4}
.digit{text-anchor:middle;font-size:10px}.digit1{fill:#fff;font-weight:bold}
.fall{fill:none;stroke:#a1260d;stroke-width:1.6}.cross{fill:none;stroke:#a1260d;stroke-width:2.6}.halo{fill:none;stroke:#fff;stroke-width:6}
.refusal{fill:#fff;stroke:#111}.refused{text-anchor:middle;font-size:9px}.tick{fill:none;stroke:#111}.tickhalo{fill:none;stroke:#fff;stroke-width:3}
.writes,.maybe,.reads{fill:none;stroke:#555}.maybe{stroke-dasharray:5 3}.reads{stroke-dasharray:1.5 2.5}.head{fill:#555}
";

const PATTERNS: &str = "\
<pattern id=\"kept\" width=\"6\" height=\"6\" patternUnits=\"userSpaceOnUse\" patternTransform=\"rotate(45)\">\
<rect width=\"6\" height=\"6\" fill=\"#fff\"/><rect width=\"2.4\" height=\"6\" fill=\"#2e9e5b\"/></pattern>
<pattern id=\"open\" width=\"6\" height=\"6\" patternUnits=\"userSpaceOnUse\">\
<rect width=\"6\" height=\"6\" fill=\"#fff\"/><circle cx=\"3\" cy=\"3\" r=\"1\" fill=\"#444\"/></pattern>
";

/// A number with one digit after the point at most.
pub fn n(number: f64) -> String {
    let text = format!("{number:.1}");
    text.strip_suffix(".0").map_or(text.clone(), str::to_owned)
}

pub fn escaped(text: &str) -> String {
    text.replace('&', "&amp;").replace('<', "&lt;").replace('>', "&gt;")
}

/// How wide a text is at most, whatever the font.
pub fn width(text: &str, size: f64) -> f64 {
    text.chars().count() as f64 * size * 0.57
}

/// The same for digits in bold, which are wider.
pub fn digits(text: &str, size: f64) -> f64 {
    text.chars().count() as f64 * size * 0.7
}

pub fn text(x: f64, y: f64, class: &str, words: &str) -> String {
    let class = if class.is_empty() { String::new() } else { format!(" class=\"{class}\"") };
    format!("<text x=\"{}\" y=\"{}\"{class}>{}</text>\n", n(x), n(y), escaped(words))
}

pub fn rect(class: &str, x: f64, y: f64, width: f64, height: f64) -> String {
    format!("<rect class=\"{class}\" x=\"{}\" y=\"{}\" width=\"{}\" height=\"{}\"/>\n", n(x), n(y), n(width), n(height))
}

/// A path, if there is anything to draw.
pub fn path(class: &str, lines: &str) -> String {
    if lines.is_empty() {
        return String::new();
    }
    format!("<path class=\"{class}\" d=\"{lines}\"/>\n")
}

pub fn link_class(link: Link) -> &'static str {
    match link {
        Link::Writes => "writes",
        Link::MaybeWrites => "maybe",
        Link::Reads => "reads",
    }
}

/// A circle with a mark in it, which is dark for 1.
pub fn mark(x: f64, y: f64, radius: f64, mark: bool) -> String {
    let number = u8::from(mark);
    let circle = format!("<circle class=\"mark{number}\" cx=\"{}\" cy=\"{}\" r=\"{}\"/>\n", n(x), n(y), n(radius));
    circle + &text(x, y + 3.5, &format!("digit digit{number}"), &number.to_string())
}

pub fn cross(x: f64, y: f64, radius: f64) -> String {
    let (r, d) = (radius - 1.5, 2.0 * (radius - 1.5));
    let lines = format!("M{} {}l{} {}m0 -{}l-{} {}", n(x - r), n(y - r), n(d), n(d), n(d), n(d), n(d));
    path("halo", &lines) + &path("cross", &lines)
}

pub fn refusal(x: f64, y: f64, number: u8) -> String {
    rect("refusal", x - 6.5, y - 6.0, 13.0, 12.0) + &text(x, y + 3.5, "refused", &number.to_string())
}

pub fn document(width: f64, height: f64, title: &str, description: &str, body: &str) -> String {
    let (width, height) = (n(width.ceil()), n(height.ceil()));
    format!(
        "<svg xmlns=\"http://www.w3.org/2000/svg\" width=\"{width}\" height=\"{height}\" viewBox=\"0 0 {width} {height}\" \
         role=\"img\" aria-labelledby=\"title desc\">\n<title id=\"title\">{}</title>\n<desc id=\"desc\">{}</desc>\n\
         <style>\n{STYLE}</style>\n<defs>\n{PATTERNS}</defs>\n<rect width=\"{width}\" height=\"{height}\" fill=\"#fff\"/>\n{body}</svg>\n",
        escaped(title),
        escaped(description)
    )
}
