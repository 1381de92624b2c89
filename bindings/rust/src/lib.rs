//! HTML parsed by `specparse`: safe Rust over its static library, without a dependency.
//!
//! ```
//! let page = specparse::Document::parse("<p class=x>a<b>c").unwrap();
//! let p = page.root().descendants().find(|n| n.name() == Some("p")).unwrap();
//! assert_eq!(p.attribute("class"), Some("x"));
//! assert_eq!(p.text_content(), "ac");
//! assert_eq!(specparse::html("a&lt;").unwrap(), "<html><head></head><body>a&lt;</body></html>");
//! assert_eq!(specparse::Document::parse(b"\xFF").unwrap_err(), specparse::Error::BadUtf8);
//!
//! let (page, script) = ("<p>a<script src=s></script>c", b"document.write(\"b\");");
//! let ran = specparse::run(page, &[("s", script)], specparse::Show::Dump).unwrap();
//! assert!(ran.printed.ends_with("node 3 text \"bc\"\nend\n") && ran.refused.is_none());
//! ```
#![deny(missing_docs)]

use std::fmt;
use std::iter::successors;

mod raw;

use raw::{Rooms, Span};

/// Why there is no tree.
#[derive(Clone, Copy, Debug, PartialEq, Eq)]
pub enum Error {
    /// There is no such context of a fragment.
    Context,
    /// The page isn't UTF-8.
    BadUtf8,
    /// More than 512 open elements, a page of more than 1,073,741,824 bytes, or more than 1,048,576
    /// characters that scripts wrote.
    Limit,
    /// Want of memory, or a tree, or texts of scripts, that 32 bits can't number.
    NoMemory,
}

impl fmt::Display for Error {
    fn fmt(&self, f: &mut fmt::Formatter<'_>) -> fmt::Result {
        f.write_str(match self {
            Error::Context => "there is no such context",
            Error::BadUtf8 => "the page isn't UTF-8",
            Error::Limit => "the page passes a limit of the parser",
            Error::NoMemory => "want of memory",
        })
    }
}

impl std::error::Error for Error {}

/// The tree of a page or of a fragment.
pub struct Document {
    rooms: Rooms,
}

/// A node of a tree.
#[derive(Clone, Copy)]
pub struct Node<'a> {
    document: &'a Document,
    number: u32,
}

/// What a node is.
#[derive(Clone, Copy, Debug, PartialEq, Eq)]
pub enum Kind<'a> {
    /// The Document.
    Document,
    /// An element of that namespace and name.
    Element(Space, &'a str),
    /// A text.
    Text(&'a str),
    /// A comment.
    Comment(&'a str),
    /// A doctype of that name.
    Doctype(&'a str),
    /// A template's contents.
    Contents,
}

/// The namespace of an element.
#[derive(Clone, Copy, Debug, PartialEq, Eq)]
pub enum Space {
    /// HTML.
    Html,
    /// MathML.
    MathMl,
    /// SVG.
    Svg,
}

/// The element in which the text of a fragment stands. A name alone is an HTML element's.
#[derive(Clone, Copy, Debug)]
pub struct Context<'a> {
    /// Its name.
    pub name: &'a str,
    /// Its namespace.
    pub space: Space,
    /// Whether it is an annotation-xml that is an HTML integration point.
    pub html_point: bool,
    /// Whether it is a form, or stands in one.
    pub in_form: bool,
    /// Whether its document is in quirks mode.
    pub quirks: bool,
}

impl<'a> From<&'a str> for Context<'a> {
    fn from(name: &'a str) -> Context<'a> {
        Context {
            name,
            space: Space::Html,
            html_point: false,
            in_form: false,
            quirks: false,
        }
    }
}

impl Document {
    /// Parses a page. Its scripts don't run.
    pub fn parse(page: impl AsRef<[u8]>) -> Result<Document, Error> {
        let rooms = Rooms::page(page.as_ref())?;
        Ok(Document { rooms })
    }

    /// Parses a text as the children of an element, as innerHTML does: `fragment("td", "a<b>c")`.
    /// They are the children of `root`.
    pub fn fragment<'c>(context: impl Into<Context<'c>>, source: &str) -> Result<Document, Error> {
        let rooms = Rooms::fragment(context.into(), source)?;
        Ok(Document { rooms })
    }

    /// The Document itself, or the node under which a fragment stands.
    pub fn root(&self) -> Node<'_> {
        Node {
            document: self,
            number: self.rooms.root,
        }
    }

    fn text(&self, span: Span) -> &str {
        let bytes = &self.rooms.text[span.start as usize..][..span.length as usize];
        // Tested, and indexed by tested numbers: what the bytes are no safe code has to trust.
        std::str::from_utf8(bytes).unwrap_or_default()
    }
}

impl PartialEq for Node<'_> {
    fn eq(&self, other: &Self) -> bool {
        std::ptr::eq(self.document, other.document) && self.number == other.number
    }
}

impl Eq for Node<'_> {}

impl fmt::Debug for Node<'_> {
    fn fmt(&self, f: &mut fmt::Formatter<'_>) -> fmt::Result {
        self.kind().fmt(f)
    }
}

impl fmt::Debug for Document {
    fn fmt(&self, f: &mut fmt::Formatter<'_>) -> fmt::Result {
        f.debug_list().entries(self.root().descendants()).finish()
    }
}

impl<'a> Node<'a> {
    fn raw(self) -> &'a raw::Node {
        &self.document.rooms.nodes[self.number as usize]
    }

    fn at(self, number: u32) -> Option<Node<'a>> {
        (number != raw::NONE).then(|| Node {
            document: self.document,
            number,
        })
    }

    /// What it is.
    pub fn kind(self) -> Kind<'a> {
        let raw = self.raw();
        let text = self.document.text(raw.text);
        match (raw.kind, raw.space) {
            (0, _) => Kind::Document,
            (1, 1) => Kind::Element(Space::MathMl, text),
            (1, 2) => Kind::Element(Space::Svg, text),
            (1, _) => Kind::Element(Space::Html, text),
            (2, _) => Kind::Text(text),
            (3, _) => Kind::Comment(text),
            (4, _) => Kind::Doctype(text),
            _ => Kind::Contents,
        }
    }

    /// The name of an element.
    pub fn name(self) -> Option<&'a str> {
        match self.kind() {
            Kind::Element(_, name) => Some(name),
            _ => None,
        }
    }

    /// Its parent.
    pub fn parent(self) -> Option<Node<'a>> {
        self.at(self.raw().parent)
    }

    /// Its first child.
    pub fn first_child(self) -> Option<Node<'a>> {
        self.at(self.raw().first_child)
    }

    /// Its last child.
    pub fn last_child(self) -> Option<Node<'a>> {
        self.at(self.raw().last_child)
    }

    /// The sibling before it.
    pub fn previous(self) -> Option<Node<'a>> {
        self.at(self.raw().previous)
    }

    /// The sibling behind it.
    pub fn next(self) -> Option<Node<'a>> {
        self.at(self.raw().next)
    }

    /// Of a template, the node whose children are its contents.
    pub fn contents(self) -> Option<Node<'a>> {
        self.at(self.raw().contents)
    }

    /// Its children.
    pub fn children(self) -> impl Iterator<Item = Node<'a>> {
        successors(self.first_child(), |node| node.next())
    }

    /// The node itself and all under it, in tree order.
    pub fn descendants(self) -> impl Iterator<Item = Node<'a>> {
        successors(Some(self), move |&node| {
            let mut at = node;
            if let Some(child) = at.first_child() {
                return Some(child);
            }
            while at != self {
                if let Some(next) = at.next() {
                    return Some(next);
                }
                at = at.parent()?;
            }
            None
        })
    }

    /// Its attributes, in their order.
    pub fn attributes(self) -> impl Iterator<Item = (&'a str, &'a str)> {
        let document = self.document;
        let span = self.raw().attributes;
        let own = &document.rooms.attributes[span.start as usize..][..span.length as usize];
        own.iter()
            .map(move |it| (document.text(it.name), document.text(it.value)))
    }

    /// The value of an attribute.
    pub fn attribute(self, name: &str) -> Option<&'a str> {
        self.attributes().find(|it| it.0 == name).map(|it| it.1)
    }

    /// The texts under it, joined.
    pub fn text_content(self) -> String {
        let mut joined = String::new();
        for node in self.descendants() {
            if let Kind::Text(text) = node.kind() {
                joined.push_str(text);
            }
        }
        joined
    }
}

/// The HTML of a page's tree.
pub fn html(page: impl AsRef<[u8]>) -> Result<String, Error> {
    raw::html(page.as_ref())
}

/// What is printed of a page's tree.
#[derive(Clone, Copy, Debug, PartialEq, Eq)]
pub enum Show {
    /// Its text, as a JSON string.
    Text,
    /// A line for each node.
    Dump,
}

/// A page that was run with its scripts.
#[derive(Clone, Debug, PartialEq, Eq)]
pub struct Ran {
    /// What the command prints: a line for what each script read, and then the tree, or why the
    /// page is refused.
    pub printed: String,
    /// `BadUtf8` or `Limit`, where the page is refused.
    pub refused: Option<Error>,
}

/// Runs a page with its scripts, as the command does: names and texts, of two of one name the
/// later; one that isn't among them is missing.
pub fn run(page: impl AsRef<[u8]>, scripts: &[(&str, &[u8])], show: Show) -> Result<Ran, Error> {
    raw::run(page.as_ref(), scripts, show)
}
