//! A picture as SVG: elements, one after the other.

use std::fmt::Write;

/// An SVG that is being written.
#[derive(Default)]
pub struct Svg {
    body: String,
}

impl Svg {
    /// An element without contents.
    pub fn element(&mut self, tag: &str, attributes: &[(&str, String)]) {
        self.body.push_str(&format!("<{tag}"));
        self.attributes(attributes);
        self.body.push_str("/>\n");
    }

    /// A text.
    pub fn text(&mut self, class: &str, at: (f64, f64), text: &str) {
        let (x, y) = (px(at.0), px(at.1));
        let _ = writeln!(
            self.body,
            "<text class=\"{class}\" x=\"{x}\" y=\"{y}\">{}</text>",
            escaped(text)
        );
    }

    /// A text of 11 lengths' height whose middle lies at a point.
    pub fn centered(&mut self, class: &str, (x, y): (f64, f64), text: &str) {
        self.text(class, (x, y + 4.0), text);
    }

    /// Begins a group.
    pub fn open(&mut self, class: &str) {
        let _ = writeln!(self.body, "<g class=\"{class}\">");
    }

    /// Ends it.
    pub fn close(&mut self) {
        self.body.push_str("</g>\n");
    }

    /// A path.
    pub fn path(&mut self, class: &str, d: &str) {
        self.element(
            "path",
            &[("class", class.to_string()), ("d", d.to_string())],
        );
    }

    /// A circle.
    pub fn circle(&mut self, class: &str, at: (f64, f64), radius: f64) {
        self.element(
            "circle",
            &[
                ("class", class.to_string()),
                ("cx", px(at.0)),
                ("cy", px(at.1)),
                ("r", px(radius)),
            ],
        );
    }

    /// A rectangle: left, top, width, height.
    pub fn rectangle(&mut self, class: &str, [x, y, width, height]: [f64; 4]) {
        let attributes = [
            ("class", class.to_string()),
            ("x", px(x)),
            ("y", px(y)),
            ("width", px(width)),
            ("height", px(height)),
        ];
        self.element("rect", &attributes);
    }

    fn attributes(&mut self, attributes: &[(&str, String)]) {
        for (name, value) in attributes {
            let _ = write!(self.body, " {name}=\"{}\"", escaped(value));
        }
    }

    /// The whole picture of this width and height, with this style and title.
    pub fn finished(self, width: f64, height: f64, title: &str, style: &str) -> String {
        let (w, h) = (px(width), px(height));
        format!(
            "<svg xmlns=\"http://www.w3.org/2000/svg\" width=\"{w}\" height=\"{h}\" viewBox=\"0 0 {w} {h}\" role=\"img\">\n\
             <title>{}</title>\n<style>\n{style}</style>\n{}</svg>\n",
            escaped(title),
            self.body
        )
    }
}

/// A length in a picture, to a hundredth.
pub fn px(value: f64) -> String {
    let mut text = format!("{value:.2}");
    while text.ends_with('0') {
        text.pop();
    }
    if text.ends_with('.') {
        text.pop();
    }
    if text == "-0" {
        text = "0".to_string();
    }
    text
}

fn escaped(text: &str) -> String {
    let mut escaped = String::with_capacity(text.len());
    for c in text.chars() {
        match c {
            '&' => escaped.push_str("&amp;"),
            '<' => escaped.push_str("&lt;"),
            '>' => escaped.push_str("&gt;"),
            '"' => escaped.push_str("&quot;"),
            c if c.is_control() => escaped.push('?'),
            c => escaped.push(c),
        }
    }
    escaped
}

#[cfg(test)]
mod tests {
    use super::*;

    #[test]
    fn lengths_are_short() {
        assert_eq!(
            [px(1.0), px(0.25), px(-0.001), px(12.346)],
            ["1", "0.25", "0", "12.35"]
        );
    }

    #[test]
    fn texts_are_escaped() {
        let mut svg = Svg::default();
        svg.text("a", (1.0, 2.0), "<b> & \"c\"\u{7}");
        let made = svg.finished(10.0, 10.0, "t", "");
        assert!(made.contains("&lt;b&gt; &amp; &quot;c&quot;?</text>"));
    }
}
