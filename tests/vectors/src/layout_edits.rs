//! Books whose length, layout number or sizes break the layout (refusal 1).

use reference::cases;
use reference::layout::{self, Book, Header, Sizes};
use reference::layout_2;
use reference::store::{convert, Way};

use crate::vector::{Edit, Meant, Vector};

/// Those of the length after case d.
pub fn edits() -> Vec<Edit> {
    let mut edits = layout_numbers();
    for (name, field, values) in SIZE_FIELDS {
        edits.extend(values.map(|value| size_in_place(name, field, value)));
    }
    edits
}

pub fn vectors() -> Vec<Vector> {
    let mut vectors = lengths();
    for (name, field, values) in SIZE_FIELDS {
        vectors.extend(values.map(|value| size_alone(name, field, value)));
    }
    for (name, field, values) in SIZES_BESIDE {
        vectors.extend(values.map(|value| size_in_place(name, field, value).vector()));
    }
    vectors.push(wrapped_length());
    vectors.extend(other_layouts());
    vectors
}

/// Each size with 0 and the number above its range.
const SIZE_FIELDS: [(&str, Header, [u16; 2]); 4] = [
    ("blocks", Header::Blocks, [0, 4_097]),
    ("lbns", Header::Lbns, [0, 1_025]),
    ("slots", Header::Slots, [0, 1_025]),
    ("records", Header::Records, [0, 16_385]),
];

/// Each size in range, one off what the length after case d is for.
const SIZES_BESIDE: [(&str, Header, [u16; 2]); 4] = [
    ("blocks", Header::Blocks, [3, 5]),
    ("lbns", Header::Lbns, [3, 5]),
    ("slots", Header::Slots, [5, 7]),
    ("records", Header::Records, [7, 9]),
];

fn refused(name: impl Into<String>, book: Vec<u8>) -> Vector {
    Vector::new(name, book, Meant::Refused1)
}

fn lengths() -> Vec<Vector> {
    let book = cases::after_d().book;
    let mut vectors: Vec<Vector> = [0, 1, 2, 10, 19, 20, 36]
        .into_iter()
        .map(|length| refused(format!("length-{length}"), book[..length].to_vec()))
        .collect();
    let one_short = book[..book.len() - 1].to_vec();
    vectors.push(refused("length-one-short", one_short));
    let mut one_long = book.clone();
    one_long.push(0);
    vectors.push(refused("length-one-long", one_long));
    vectors.push(refused("length-twice", [&book[..], &book[..]].concat()));
    vectors
}

fn layout_numbers() -> Vec<Edit> {
    let edit = |layout| {
        Edit::new(format!("layout-{layout}"), Meant::Refused1, move |book| {
            book.set_header(Header::Layout, layout);
        })
    };
    [0, 1, 2, 4, 256, 259, 65_535]
        .into_iter()
        .map(edit)
        .collect()
}

/// The book after case d in layouts 1 and 2, and the bytes of layout 1 with a later number.
fn other_layouts() -> [Vector; 4] {
    let older = layout_2::after_d().book;
    let mut narrow = vec![0; cases::SIZES.book_bytes_in(1)];
    convert(Way::TwoToOne, &older, &mut narrow).expect("small counts");
    let said = |layout| {
        let mut book = narrow.clone();
        Book::over(&mut book[..]).set_header(Header::Layout, layout);
        book
    };
    [
        refused("layout-1-said-to-be-2", said(2)),
        refused("layout-1-said-to-be-3", said(3)),
        refused("after-d-in-layout-1", narrow),
        refused("after-d-in-layout-2", older),
    ]
}

/// A fresh book of the wrong size, its length that of the sizes it names.
fn size_alone(name: &str, field: Header, value: u16) -> Vector {
    let mut sizes = cases::SIZES;
    match field {
        Header::Blocks => sizes.blocks = value,
        Header::Lbns => sizes.lbns = value,
        Header::Slots => sizes.slots = value,
        _ => sizes.records = value,
    }
    let mut book = vec![0; sizes.book_bytes()];
    layout::format(&mut book, sizes);
    refused(format!("{name}-{value}-alone"), book)
}

/// The book after case d with the size changed and its length kept.
fn size_in_place(name: &str, field: Header, value: u16) -> Edit {
    let name = format!("{name}-{value}-in-place");
    Edit::new(name, Meant::Refused1, move |book| {
        book.set_header(field, value);
    })
}

/// The largest sizes over as many bytes as their length leaves modulo 65,536.
fn wrapped_length() -> Vector {
    let sizes = Sizes {
        blocks: 4_096,
        lbns: 1_024,
        slots: 1_024,
        records: 16_384,
    };
    let mut book = vec![0; sizes.book_bytes()];
    layout::format(&mut book, sizes);
    book.truncate(sizes.book_bytes() % 65_536);
    assert_eq!(Book::over(&book[..]).sizes(), sizes);
    refused("length-wrapped", book)
}
