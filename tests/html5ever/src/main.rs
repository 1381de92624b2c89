//! For each page that its words name, writes the dump of html5ever's tree beside it, with `.tree` behind its name, as `specparse page --dump` does.

use html5ever::tendril::TendrilSink;
use html5ever::{namespace_url, ns, parse_document, Attribute, ParseOpts, QualName};
use markup5ever_rcdom::{Handle, NodeData, RcDom};
use std::fs;

fn push_json(out: &mut String, text: &str) {
    out.push_str(" \"");
    for c in text.chars() {
        match c {
            '"' => out.push_str("\\\""),
            '\\' => out.push_str("\\\\"),
            '\u{8}' => out.push_str("\\b"),
            '\t' => out.push_str("\\t"),
            '\n' => out.push_str("\\n"),
            '\u{c}' => out.push_str("\\f"),
            '\r' => out.push_str("\\r"),
            c if c < ' ' => out.push_str(&format!("\\u{:04x}", u32::from(c))),
            c => out.push(c),
        }
    }
    out.push('"');
}

fn element_name(name: &QualName) -> String {
    match name.ns {
        ns!(svg) => format!("svg {}", name.local),
        ns!(mathml) => format!("math {}", name.local),
        _ => name.local.to_string(),
    }
}

fn attribute_name(attribute: &Attribute) -> String {
    match &attribute.name.prefix {
        Some(prefix) if !prefix.is_empty() => format!("{}:{}", prefix, attribute.name.local),
        _ => attribute.name.local.to_string(),
    }
}

fn push_kind(out: &mut String, kind: &NodeData) {
    match kind {
        NodeData::Doctype { name, .. } => {
            out.push_str(" doctype");
            push_json(out, name);
        }
        NodeData::Text { contents } => {
            out.push_str(" text");
            push_json(out, &contents.borrow());
        }
        NodeData::Comment { contents } => {
            out.push_str(" comment");
            push_json(out, contents);
        }
        NodeData::Element { name, attrs, .. } => {
            out.push_str(" element");
            push_json(out, &element_name(name));
            for attribute in attrs.borrow().iter() {
                push_json(out, &attribute_name(attribute));
                push_json(out, &attribute.value);
            }
        }
        NodeData::Document | NodeData::ProcessingInstruction { .. } => {}
    }
}

fn push_nodes(out: &mut String, nodes: &[Handle], depth: usize) {
    for node in nodes {
        out.push_str(&format!("node {}", depth));
        push_kind(out, &node.data);
        out.push('\n');
        if let NodeData::Element { template_contents, .. } = &node.data {
            if let Some(contents) = template_contents.borrow().as_ref() {
                out.push_str(&format!("node {} contents\n", depth + 1));
                push_nodes(out, &contents.children.borrow(), depth + 2);
            }
        }
        push_nodes(out, &node.children.borrow(), depth + 1);
    }
}

fn main() {
    for path in std::env::args().skip(1) {
        let mut page = fs::File::open(&path).expect("to open the page");
        let parser = parse_document(RcDom::default(), ParseOpts::default()).from_utf8();
        let dom = parser.read_from(&mut page).expect("to read the page");
        let mut out = String::new();
        push_nodes(&mut out, &dom.document.children.borrow(), 0);
        out.push_str("end\n");
        fs::write(path + ".tree", out).expect("to write the dump");
    }
}
