//! Reads each file that its words name, parses it with html5ever into an RcDom, and frees the tree.

use html5ever::tendril::TendrilSink;
use html5ever::{parse_document, ParseOpts};
use markup5ever_rcdom::RcDom;

fn main() {
    for path in std::env::args().skip(1) {
        let mut page = std::fs::File::open(path).expect("to open the page");
        let parser = parse_document(RcDom::default(), ParseOpts::default()).from_utf8();
        let dom = parser.read_from(&mut page).expect("to read the page");
        assert!(!dom.document.children.borrow().is_empty());
    }
}
