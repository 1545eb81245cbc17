//! Elements of an SVG, whose looks the style sheet gives by their classes.

#[derive(Default)]
pub struct Svg {
    body: String,
}

impl Svg {
    /// The document, with a ground of its own, so that the colour of the page does not matter.
    pub fn finish(self, [w, h]: [f64; 2], title: &str) -> String {
        let (body, title) = (self.body, escape(title));
        let size = format!("width='{w:.0}' height='{h:.0}'");
        let page = format!("{size} viewBox='0 0 {w:.0} {h:.0}' font-size='11' fill='#1c1f24'");
        let fonts = "font-family='Helvetica, Arial, DejaVu Sans, sans-serif'";
        let head = format!("<svg xmlns='http://www.w3.org/2000/svg' {page} {fonts}>");
        let ground = format!("<rect {size} fill='#fff'/>");
        format!("{head}\n<title>{title}</title>\n{ground}\n{body}</svg>\n")
    }

    /// Adds what is SVG already.
    pub fn add(&mut self, element: &str) {
        self.body += element;
        self.body.push('\n');
    }

    pub fn append(&mut self, other: Svg) {
        self.body += &other.body;
    }

    /// By left, top, width and height.
    pub fn rect(&mut self, class: &str, [x, y, w, h]: [f64; 4]) {
        let place = format!("x='{x:.1}' y='{y:.1}' width='{w:.1}' height='{h:.1}'");
        self.add(&format!("<rect class='{class}' {place}/>"));
    }

    pub fn path(&mut self, class: &str, way: &str) {
        self.add(&format!("<path class='{class}' d='{way}'/>"));
    }

    /// Text whose middle is at y.
    pub fn text(&mut self, class: &str, [x, y]: [f64; 2], text: &str) {
        let (text, place) = (escape(text), format!("x='{x:.1}' y='{y:.1}' dy='.36em'"));
        self.add(&format!("<text class='{class}' {place}>{text}</text>"));
    }
}

/// The width of a text of size 11 in a wide font, since the reader's is not known.
pub fn width(text: &str) -> f64 {
    let letter = |letter: char| match letter {
        ' ' | '.' | ',' | ':' | '-' | 'i' | 'j' | 'l' | 'f' | 't' | 'r' => 4.2,
        '→' | 'm' | 'w' | 'A'..='Z' => 9.2,
        _ => 7.0,
    };
    text.chars().map(letter).sum()
}

fn escape(text: &str) -> String {
    let letter = |letter: char| match letter {
        '&' => "&amp;".to_string(),
        '<' => "&lt;".to_string(),
        '>' => "&gt;".to_string(),
        // XML has no place for these, not even escaped
        '\0'..='\u{1f}' | '\u{fffe}' | '\u{ffff}' => "\u{fffd}".to_string(),
        _ => letter.to_string(),
    };
    text.chars().map(letter).collect()
}
