//! dump [-t | -f NAME SPACE FLAGS] PAGE..: of each page the tree as `specparse page --dump` prints
//! it; with -t its text as `specparse page` does, with -f what it is as a fragment in that context;
//! or its status.

use specparse::{Context, Document, Error, Kind, Node, Space};
use std::io::{stdout, Write};

/// As a JSON string.
fn quoted(text: &str) -> String {
    let mut quoted = String::from("\"");
    for c in text.chars() {
        match c {
            '"' | '\\' => quoted.extend(['\\', c]),
            '\n' => quoted.push_str("\\n"),
            '\t' => quoted.push_str("\\t"),
            '\r' => quoted.push_str("\\r"),
            '\u{c}' => quoted.push_str("\\f"),
            '\u{8}' => quoted.push_str("\\b"),
            c if c < ' ' => quoted.push_str(&format!("\\u{:04x}", c as u32)),
            c => quoted.push(c),
        }
    }
    quoted + "\""
}

fn line(node: Node) -> String {
    let mut line = match node.kind() {
        Kind::Document => String::new(),
        Kind::Element(Space::Html, name) => format!("element {}", quoted(name)),
        Kind::Element(Space::MathMl, name) => {
            format!("element {}", quoted(&format!("math {name}")))
        }
        Kind::Element(Space::Svg, name) => format!("element {}", quoted(&format!("svg {name}"))),
        Kind::Text(text) => format!("text {}", quoted(text)),
        Kind::Comment(text) => format!("comment {}", quoted(text)),
        Kind::Doctype(name) => format!("doctype {}", quoted(name)),
        Kind::Contents => "contents".to_string(),
    };
    for (name, value) in node.attributes() {
        line.push_str(&format!(" {} {}", quoted(name), quoted(value)));
    }
    line
}

fn dump(out: &mut String, node: Node, depth: usize) {
    for below in node.contents().into_iter().chain(node.children()) {
        out.push_str(&format!("node {depth} {}\n", line(below)));
        dump(out, below, depth + 1);
    }
}

fn status(error: Error) -> String {
    let status = match error {
        Error::Context => 2,
        Error::BadUtf8 => 4,
        Error::Limit => 5,
        Error::NoMemory => 12,
    };
    format!("status {status}\n")
}

fn tree(document: &Document) -> String {
    let mut out = String::new();
    dump(&mut out, document.root(), 0);
    out + "end\n"
}

fn context<'a>(name: &'a str, space: &str, flags: &str) -> Context<'a> {
    let flags: u32 = flags.parse().unwrap();
    Context {
        name,
        space: [Space::Html, Space::MathMl, Space::Svg][space.parse::<usize>().unwrap()],
        html_point: flags & 1 != 0,
        in_form: flags & 2 != 0,
        quirks: flags & 4 != 0,
    }
}

fn main() {
    let words: Vec<String> = std::env::args().skip(1).collect();
    let words: Vec<&str> = words.iter().map(String::as_str).collect();
    let read = |path: &&str| std::fs::read(path).unwrap();
    let mut out = stdout().lock();
    let mut print = |text: Result<String, Error>| {
        out.write_all(text.unwrap_or_else(status).as_bytes())
            .unwrap()
    };
    match words[..] {
        ["-t", ref paths @ ..] => {
            for path in paths {
                print(specparse::html(read(path)).map(|text| format!("tree {}\n", quoted(&text))));
            }
        }
        ["-f", name, space, flags, ref paths @ ..] => {
            for path in paths {
                let source = String::from_utf8(read(path)).unwrap();
                let made = Document::fragment(context(name, space, flags), &source);
                print(made.map(|it| tree(&it)));
            }
        }
        ref paths => {
            for path in paths {
                print(Document::parse(read(path)).map(|it| tree(&it)));
            }
        }
    }
}
