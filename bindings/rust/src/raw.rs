//! The calls of the static library.

use crate::{Context, Error, Ran, Show};
use std::ptr::addr_of;
use std::slice;

pub const NONE: u32 = u32::MAX;

#[repr(C)]
#[derive(Clone, Copy)]
pub struct Span {
    pub start: u32,
    pub length: u32,
}

#[repr(C)]
pub struct Node {
    pub kind: u32,
    pub space: u32,
    pub parent: u32,
    pub first_child: u32,
    pub last_child: u32,
    pub previous: u32,
    pub next: u32,
    pub contents: u32,
    pub attributes: Span,
    pub text: Span,
}

#[repr(C)]
pub struct Attribute {
    pub name: Span,
    pub value: Span,
}

const _: () = assert!(std::mem::size_of::<Node>() == 48 && std::mem::size_of::<Attribute>() == 16);

#[repr(C)]
#[derive(Clone, Copy)]
struct Sizes {
    nodes: usize,
    attributes: usize,
    text: usize,
    root: usize,
}

#[rustfmt::skip]
extern "C" {
    static sp_standard_entities: u8;
    static sp_standard_entities_length: usize;
    fn sp_parse(
        entities: *const u8, entities_length: usize, page: *const u8, page_length: usize,
        nodes: *mut Node, nodes_room: usize, attributes: *mut Attribute, attributes_room: usize,
        text: *mut u8, text_room: usize, sizes: *mut Sizes,
    ) -> u32;
    fn sp_fragment(
        entities: *const u8, entities_length: usize,
        name: *const u8, name_length: usize, space: u32, flags: u32,
        source: *const u8, source_length: usize,
        nodes: *mut Node, nodes_room: usize, attributes: *mut Attribute, attributes_room: usize,
        text: *mut u8, text_room: usize, sizes: *mut Sizes,
    ) -> u32;
    fn sp_html(
        entities: *const u8, entities_length: usize, page: *const u8, page_length: usize,
        text: *mut u8, text_room: usize, needed: *mut usize,
    ) -> u32;
    fn sp_run(
        entities: *const u8, entities_length: usize, page: *const u8, page_length: usize,
        scripts: *const Attribute, scripts_count: usize, bytes: *const u8, bytes_length: usize,
        flags: u32, text: *mut u8, text_room: usize, needed: *mut usize,
    ) -> u32;
}

/// The standard's list of entities, which stands in the archive.
fn entities() -> &'static [u8] {
    // SAFETY: the archive has so many bytes there, and nobody writes to them.
    unsafe { slice::from_raw_parts(addr_of!(sp_standard_entities), sp_standard_entities_length) }
}

/// Room for so many items.
fn room<T>(count: usize) -> Result<Vec<T>, Error> {
    let mut room = Vec::new();
    room.try_reserve_exact(count).map_err(|_| Error::NoMemory)?;
    Ok(room)
}

/// A tree in three lists.
pub struct Rooms {
    pub nodes: Vec<Node>,
    pub attributes: Vec<Attribute>,
    pub text: Vec<u8>,
    pub root: u32,
}

/// What a status other than 0 and 13 says.
fn error(status: u32) -> Error {
    match status {
        2 => Error::Context,
        4 => Error::BadUtf8,
        5 => Error::Limit,
        _ => Error::NoMemory,
    }
}

impl Rooms {
    /// Makes room of a guessed size, and once more where it was too small.
    fn make(length: usize, call: impl Fn(&mut Rooms, &mut Sizes) -> u32) -> Result<Rooms, Error> {
        let mut sizes = Sizes {
            nodes: length / 2 + 64,
            attributes: length / 4 + 64,
            text: length + length / 8 + 256,
            root: 0,
        };
        loop {
            let mut rooms = Rooms {
                nodes: room(sizes.nodes)?,
                attributes: room(sizes.attributes)?,
                text: room(sizes.text)?,
                root: 0,
            };
            match call(&mut rooms, &mut sizes) {
                0 => {
                    // SAFETY: at 0 the call has written so many whole items, of plain integers,
                    // to the fronts of the rooms: so its clause says.
                    unsafe {
                        rooms.nodes.set_len(sizes.nodes);
                        rooms.attributes.set_len(sizes.attributes);
                        rooms.text.set_len(sizes.text);
                    }
                    rooms.root = sizes.root as u32;
                    return Ok(rooms);
                }
                13 => {}
                status => return Err(error(status)),
            }
        }
    }

    pub fn page(page: &[u8]) -> Result<Rooms, Error> {
        let list = entities();
        // SAFETY: each pointer and number is that of a slice, or of a room that is borrowed for
        // the call alone; a slice's and a Vec's pointer is never null.
        #[rustfmt::skip]
        let call = |r: &mut Rooms, sizes: &mut Sizes| unsafe {
            sp_parse(
                list.as_ptr(), list.len(), page.as_ptr(), page.len(),
                r.nodes.as_mut_ptr(), r.nodes.capacity(),
                r.attributes.as_mut_ptr(), r.attributes.capacity(),
                r.text.as_mut_ptr(), r.text.capacity(), sizes,
            )
        };
        Rooms::make(page.len(), call)
    }

    pub fn fragment(context: Context, source: &str) -> Result<Rooms, Error> {
        let (list, name, space) = (entities(), context.name, context.space as u32);
        let flags =
            context.html_point as u32 + 2 * context.in_form as u32 + 4 * context.quirks as u32;
        // SAFETY: as above.
        #[rustfmt::skip]
        let call = |r: &mut Rooms, sizes: &mut Sizes| unsafe {
            sp_fragment(
                list.as_ptr(), list.len(), name.as_ptr(), name.len(), space, flags,
                source.as_ptr(), source.len(),
                r.nodes.as_mut_ptr(), r.nodes.capacity(),
                r.attributes.as_mut_ptr(), r.attributes.capacity(),
                r.text.as_mut_ptr(), r.text.capacity(), sizes,
            )
        };
        Rooms::make(source.len(), call)
    }
}

/// Makes room of a guessed size, and once more where it was too small; what a call fills of it,
/// as text, and its status, where that is one of these.
fn text(
    guess: usize,
    full: &[u32],
    call: impl Fn(&mut Vec<u8>, &mut usize) -> u32,
) -> Result<(String, u32), Error> {
    let mut needed = guess;
    loop {
        let mut text = room(needed)?;
        match call(&mut text, &mut needed) {
            13 => {}
            status if full.contains(&status) => {
                // SAFETY: at these the call has written so many bytes to the room's front: so its
                // clause says.
                unsafe { text.set_len(needed) };
                let text = String::from_utf8(text).map_err(|_| Error::NoMemory)?;
                return Ok((text, status));
            }
            status => return Err(error(status)),
        }
    }
}

pub fn html(page: &[u8]) -> Result<String, Error> {
    let list = entities();
    // SAFETY: as above.
    #[rustfmt::skip]
    let call = |text: &mut Vec<u8>, needed: &mut usize| unsafe {
        sp_html(
            list.as_ptr(), list.len(), page.as_ptr(), page.len(),
            text.as_mut_ptr(), text.capacity(), needed,
        )
    };
    Ok(text(page.len() + page.len() / 4 + 256, &[0], call)?.0)
}

/// Lays a text behind the others.
fn put(bytes: &mut Vec<u8>, text: &[u8]) -> Result<Span, Error> {
    let start = u32::try_from(bytes.len()).map_err(|_| Error::NoMemory)?;
    let length = u32::try_from(text.len()).map_err(|_| Error::NoMemory)?;
    bytes.try_reserve(text.len()).map_err(|_| Error::NoMemory)?;
    bytes.extend_from_slice(text);
    Ok(Span { start, length })
}

pub fn run(page: &[u8], scripts: &[(&str, &[u8])], show: Show) -> Result<Ran, Error> {
    let (list, flags) = (entities(), show as u32);
    let (mut rows, mut bytes) = (room(scripts.len())?, Vec::new());
    for (name, text) in scripts {
        let (name, value) = (put(&mut bytes, name.as_bytes())?, put(&mut bytes, text)?);
        rows.push(Attribute { name, value });
    }
    // SAFETY: as above.
    #[rustfmt::skip]
    let call = |text: &mut Vec<u8>, needed: &mut usize| unsafe {
        sp_run(
            list.as_ptr(), list.len(), page.as_ptr(), page.len(),
            rows.as_ptr(), rows.len(), bytes.as_ptr(), bytes.len(), flags,
            text.as_mut_ptr(), text.capacity(), needed,
        )
    };
    let (printed, status) = text(page.len() + page.len() / 4 + 4096, &[0, 4, 5], call)?;
    let refused = (status != 0).then(|| error(status));
    Ok(Ran { printed, refused })
}
