//! Type sections, and modules section by section, are read and written as the binary format says.
use ruffdresser::AbstractHeapType;
use ruffdresser::types::{
    CompAt, EntryAt, FieldAt, GroupAt, HeapAt, Listed, RefAt, StorageAt, Val, ValAt,
};
use ruffdresser::wasm::*;
use std::ops::Range;

/// The module of these sections.
fn module(sections: &[u8]) -> Vec<u8> {
    [b"\0asm\x01\0\0\0", sections].concat()
}

fn malformed<T>(offset: usize, expected: Expected) -> Result<T, DecodeError> {
    Err(DecodeError::Malformed { offset, expected })
}

/// A final definition without supertype.
fn plain(comp: CompAt) -> EntryAt {
    EntryAt { comp, is_final: true, supertype: None }
}

fn field(element_type: StorageAt, mutable: bool) -> FieldAt {
    FieldAt { element_type, mutable }
}

fn array(element_type: StorageAt) -> EntryAt {
    plain(CompAt::Array { field: field(element_type, false) })
}

fn array_of(nullable: bool, heap_type: HeapAt) -> GroupAt {
    GroupAt::Single(array(StorageAt::Val(ValAt::Ref(RefAt { nullable, heap_type }))))
}

fn function(params: &[ValAt], results: &[ValAt]) -> GroupAt {
    let (params, results) = (Listed::from(params.to_vec()), Listed::from(results.to_vec()));
    GroupAt::Single(plain(CompAt::Function { params, results }))
}

fn structure(fields: &[FieldAt]) -> GroupAt {
    GroupAt::Single(plain(CompAt::Struct { fields: Listed::from(fields.to_vec()) }))
}

fn rec(entries: &[EntryAt]) -> GroupAt {
    GroupAt::Rec(Listed::from(entries.to_vec()))
}

#[test]
fn abstract_heap_types_have_codes() {
    use AbstractHeapType::*;
    let types = [NoExn, NoFunc, NoExtern, None, Func, Extern, Any, Eq, I31, Struct, Array, Exn];
    for (code, ty) in (0x69..=0x74).rev().zip(types) {
        for (bytes, nullable) in [
            (vec![1, 0x5E, code, 0], true),
            (vec![1, 0x5E, 0x63, code, 0], true),
            (vec![1, 0x5E, 0x64, code, 0], false),
        ] {
            let groups = [array_of(nullable, HeapAt::Abstract(ty))];
            assert_eq!(decode_types(&bytes).as_deref(), Ok(groups.as_slice()));
        }
    }
}

#[test]
fn definitions_and_groups_are_read() {
    use Val::*;
    let entry = |is_final, supertype| EntryAt { is_final, supertype, ..array(StorageAt::I8) };
    let fields = [
        field(StorageAt::I8, false),
        field(StorageAt::I16, true),
        field(StorageAt::Val(I32), false),
    ];
    let mutable = CompAt::Array { field: field(StorageAt::Val(F32), true) };
    let params = [I32, I64, F32, F64, V128];
    let rows: [(&[u8], GroupAt); 10] = [
        (&[0x60, 5, 0x7F, 0x7E, 0x7D, 0x7C, 0x7B, 1, 0x7C], function(&params, &[F64])),
        (&[0x5F, 3, 0x78, 0, 0x77, 1, 0x7F, 0], structure(&fields)),
        (&[0x5E, 0x7D, 1], GroupAt::Single(plain(mutable))),
        (&[0x50, 0, 0x5E, 0x78, 0], GroupAt::Single(entry(false, None))),
        (&[0x4F, 1, 0x40, 0x5E, 0x78, 0], GroupAt::Single(entry(true, Some(64)))),
        (&[0x4F, 0, 0x5E, 0x78, 0], GroupAt::Single(entry(true, None))),
        (&[0x4E, 1, 0x5E, 0x78, 0], rec(&[entry(true, None)])),
        (&[0x4E, 0], rec(&[])),
        (&[0x5E, 0x63, 0x62, 5, 0], array_of(true, HeapAt::Exact(5))),
        (&[0x5E, 0x63, 5, 0], array_of(true, HeapAt::Concrete(5))),
    ];
    for (bytes, group) in rows {
        assert_eq!(decode_types(&[&[1], bytes].concat()), Ok(vec![group]));
    }
}

#[test]
fn integers_have_up_to_32_bits_and_may_be_padded() {
    let open = EntryAt { is_final: false, supertype: Some(u32::MAX), ..array(StorageAt::I8) };
    let greatest = array_of(false, HeapAt::Concrete(u32::MAX));
    let rows: [(&[u8], GroupAt); 9] = [
        (&[0x5E, 0x64, 0x3F, 0], array_of(false, HeapAt::Concrete(63))),
        (&[0x5E, 0x64, 0xC0, 0, 0], array_of(false, HeapAt::Concrete(64))),
        (&[0x5E, 0x64, 0xFF, 0xFF, 0xFF, 0xFF, 0x0F, 0], greatest),
        (&[0x5E, 0x64, 0x62, 0x40, 0], array_of(false, HeapAt::Exact(64))),
        (&[0x50, 1, 0xFF, 0xFF, 0xFF, 0xFF, 0x0F, 0x5E, 0x78, 0], GroupAt::Single(open)),
        (&[0x60, 0x81, 0x80, 0x80, 0x80, 0, 0x7F, 0x80, 0], function(&[ValAt::I32], &[])),
        (&[0x5F, 0x80, 0x80, 0], structure(&[])),
        (&[0x4E, 0x80, 0], rec(&[])),
        (&[0x4F, 0x80, 0x80, 0x80, 0x80, 0, 0x5E, 0x78, 0], GroupAt::Single(array(StorageAt::I8))),
    ];
    for (bytes, group) in rows {
        assert_eq!(decode_types(&[&[1], bytes].concat()), Ok(vec![group]));
    }
    for bytes in [[0].as_slice(), &[0x80, 0], &[0x80, 0x80, 0x80, 0x80, 0]] {
        assert_eq!(decode_types(bytes), Ok(vec![]));
    }
}

#[test]
fn what_is_no_text_of_types_is_refused_where_it_goes_wrong() {
    use Expected::*;
    let rows: [(&[u8], usize, Expected); 26] = [
        (&[0xFF, 0xFF, 0xFF, 0xFF, 0x0F], 5, RecType),
        (&[0x80, 0x80, 0x80, 0x80, 0x80, 0], 4, Integer),
        (&[0x80, 0x80, 0x80, 0x80, 0x10], 4, Integer),
        (&[0x80, 0x80, 0x80, 0x80, 0x40], 4, Integer),
        (&[1, 0x5E, 0x64, 0x40, 0], 3, HeapType),
        (&[1, 0x5E, 0x63, 0x7F, 0], 3, HeapType),
        (&[1, 0x5E, 0x64, 0xF0, 0x7F, 0], 4, Integer),
        (&[1, 0x5E, 0x64, 0xFF, 0xFF, 0xFF, 0xFF, 0x7F, 0], 7, Integer),
        (&[1, 0x5E, 0x64, 0xFF, 0xFF, 0xFF, 0xFF, 0x2F, 0], 7, Integer),
        (&[1, 0x5E, 0x64, 0x80, 0x80, 0x80, 0x80, 0x80, 0, 0], 7, Integer),
        (&[1, 0x5E, 0x64, 0x62, 0xFF, 0xFF, 0xFF, 0xFF, 0x1F, 0], 8, Integer),
        (&[1, 0x50, 1, 0xFF, 0xFF, 0xFF, 0xFF, 0x1F, 0x5E, 0x78, 0], 7, Integer),
        (&[1, 0x50, 1, 0x80, 0x80, 0x80, 0x80, 0x80, 0, 0x5E, 0x78, 0], 7, Integer),
        (&[1, 0x60, 1, 0x78, 0], 3, ValType),
        (&[1, 0x60, 0, 1, 0x40], 4, ValType),
        (&[1, 0x60, 0, 1, 0x62], 4, ValType),
        (&[1, 0x60, 0, 1, 0x05], 4, ValType),
        (&[1, 0x5F, 1, 0x79, 0], 3, ValType),
        (&[1, 0x5F, 1], 3, StorageType),
        (&[1, 0x5F, 1, 0x78, 2], 4, Mutability),
        (&[1, 0x5E, 0x7D, 0x7D], 3, Mutability),
        (&[1, 0x61, 0], 1, CompType),
        (&[1, 0x4E, 1, 0x4E, 0], 3, CompType),
        (&[1, 0x4F, 1, 0, 0x4E, 0], 4, CompType),
        (&[1, 0x50, 0, 0x50, 0, 0x5E, 0x78, 0], 3, CompType),
        (&[1, 0x5E, 0x78, 0, 0x5E], 4, End),
    ];
    for (bytes, offset, expected) in rows {
        assert_eq!(decode_types(bytes), malformed(offset, expected));
    }
}

#[test]
fn types_that_no_record_holds_are_told() {
    use NotHeld::*;
    let rows: [(&[u8], usize, NotHeld); 9] = [
        (&[1, 0x50, 2, 0, 1, 0x5E, 0x78, 0], 2, Supertypes),
        (&[1, 0x65, 0x5E, 0x78, 0], 1, Shared),
        (&[1, 0x5E, 0x63, 0x65, 0x6E, 0], 3, Shared),
        (&[1, 0x60, 1, 0x65, 0x70, 0], 3, Shared),
        (&[1, 0x5D, 0], 1, Continuation),
        (&[1, 0x5E, 0x63, 0x68, 0], 3, Continuation),
        (&[1, 0x5E, 0x75, 0], 2, Continuation),
        (&[1, 0x4D, 1, 0x5F, 0], 1, Descriptor),
        (&[1, 0x4C, 0, 0x5F, 0], 1, Descriptor),
    ];
    for (bytes, offset, what) in rows {
        assert_eq!(decode_types(bytes), Err(DecodeError::NotHeld { offset, what }));
    }
}

/// The bytes, read and written again.
fn shortest(bytes: &[u8]) -> Vec<u8> {
    encode_types(&decode_types(bytes).expect("types")).expect("not too many")
}

#[test]
fn the_shortest_text_is_written() {
    assert_eq!(shortest(&[0x81, 0, 0x5E, 0x64, 0x85, 0x80, 0, 0]), [1, 0x5E, 0x64, 5, 0]);
    assert_eq!(shortest(&[1, 0x5E, 0x63, 0x70, 0]), [1, 0x5E, 0x70, 0]);
    assert_eq!(shortest(&[1, 0x4F, 0, 0x5E, 0x78, 0]), [1, 0x5E, 0x78, 0]);
    let stays: [&[u8]; 12] = [
        &[0],
        &[1, 0x5E, 0x64, 0x70, 0],
        &[1, 0x50, 0, 0x5E, 0x78, 0],
        &[1, 0x4F, 1, 0, 0x5E, 0x78, 0],
        &[1, 0x4E, 1, 0x5E, 0x78, 0],
        &[1, 0x5E, 0x64, 0x3F, 0],
        &[1, 0x5E, 0x64, 0xC0, 0, 0],
        &[1, 0x5E, 0x63, 0xFF, 0xFF, 0xFF, 0xFF, 0x0F, 0],
        &[1, 0x5E, 0x63, 0x62, 0x40, 0],
        &[1, 0x50, 1, 0x40, 0x5E, 0x78, 0],
        &[2, 0x60, 2, 0x7F, 0x7E, 3, 0x6F, 0x7D, 0x7B, 0x5E, 0x77, 1],
        &[1, 0x4E, 2, 0x50, 1, 5, 0x5F, 2, 0x63, 0xC0, 0, 1, 0x78, 0, 0x5E, 0x64, 0x62, 7, 0],
    ];
    for bytes in stays {
        assert_eq!(shortest(bytes), bytes);
    }
}

/// Two function types.
const FUNCTIONS: [u8; 13] = [2, 0x60, 2, 0x7F, 0x64, 0xC0, 0, 1, 0x6F, 0x60, 0, 1, 0x7B];

/// A recursion group of an open struct type and an array type below it.
const RECURSION: [u8; 20] =
    [1, 0x4E, 2, 0x50, 0, 0x5F, 2, 0x78, 1, 0x63, 1, 0, 0x4F, 1, 0, 0x5E, 0x64, 0x62, 0, 0];

/// An array type and a function type, with padded integers and nothing abbreviated.
const PADDED: [u8; 19] = [
    0x82, 0, 0x4F, 0x80, 0, 0x5E, 0x63, 0x70, 0, 0x60, 0x81, 0x80, 0, 0x7F, 0x80, 0x80, 0x80, 0x80,
    0,
];

/// The place of the first bad byte: none where the bytes are read, and written again.
fn bad_byte(bytes: &[u8]) -> Option<usize> {
    match decode_types(bytes) {
        Ok(groups) => {
            let text = encode_types(&groups).expect("not too many");
            assert!(text.len() < bytes.len() || text == bytes);
            assert_eq!(decode_types(&text), Ok(groups));
            None
        }
        Err(DecodeError::Malformed { offset, .. } | DecodeError::NotHeld { offset, .. }) => {
            Some(offset)
        }
        Err(DecodeError::Memory) => panic!("memory was refused"),
    }
}

/// The bytes with each of the 256 bytes at a place.
fn changes(bytes: &[u8], at: usize) -> impl Iterator<Item = Vec<u8>> {
    (0..=255).map(move |byte| [&bytes[..at], &[byte], &bytes[at + 1..]].concat())
}

#[test]
fn each_beginning_of_types_lacks_only_more_bytes() {
    for bytes in [FUNCTIONS.as_slice(), &RECURSION, &PADDED] {
        assert_eq!(bad_byte(bytes), None);
        for len in 0..bytes.len() {
            assert_eq!(bad_byte(&bytes[..len]), Some(len));
        }
    }
}

/// For each place, how many of the 256 bytes there are read, and the places of the first bad byte
/// of the others, added up.
fn tallies(bytes: &[u8]) -> (Vec<usize>, Vec<usize>) {
    let of_place = |at| {
        let places: Vec<_> = changes(bytes, at).filter_map(|changed| bad_byte(&changed)).collect();
        (256 - places.len(), places.iter().sum::<usize>())
    };
    (0..bytes.len()).map(of_place).unzip()
}

#[test]
fn types_with_a_changed_byte_go_wrong_first_where_another_reader_says() {
    // That reader was written from the specification, in another language.
    let read = vec![1, 1, 1, 2, 1, 1, 1, 19, 2, 2, 76, 2, 2, 2, 128, 1, 2, 129, 128, 2];
    let places = vec![
        2777, 262, 3027, 775, 1022, 1278, 2540, 1663, 2032, 2324, 2058, 2794, 3053, 3306, 2048,
        3829, 4083, 2311, 2560, 4826,
    ];
    assert_eq!(tallies(&RECURSION), (read, places));
    let read = vec![1, 1, 2, 2, 1, 1, 2, 76, 2, 1, 1, 1, 1, 17, 1, 1, 1, 1, 1];
    let places = vec![
        2514, 2797, 529, 766, 765, 1282, 1543, 1518, 2032, 2315, 3188, 3314, 3570, 3119, 4333,
        4461, 4589, 4717, 4605,
    ];
    assert_eq!(tallies(&PADDED), (read, places));
}

#[test]
fn a_changed_size_or_id_can_leave_no_type_section() {
    // a custom section, a type section and a function section
    let bytes = module(&[0, 2, 1, 0x61, 1, 4, 1, 0x60, 0, 0, 3, 2, 1, 0]);
    for at in 0..bytes.len() {
        let without = changes(&bytes, at).filter(|changed| type_section(changed) == Ok(None));
        let count = match at {
            9 => 5,  // the size of the custom section
            12 => 2, // the id of the type section
            _ => 0,
        };
        assert_eq!(without.count(), count);
    }
}

#[test]
fn the_type_section_is_found() {
    let rows: [(&[u8], Option<Range<usize>>); 8] = [
        (&[], None),
        (&[1, 0], Some(10..10)),
        (&[0, 3, 1, 0x61, 7, 0, 2, 1, 0x61, 1, 1, 0, 0, 2, 1, 0x62], Some(19..20)),
        (&[0, 2, 1, 0x61], None),
        // all sections in their order
        (
            &[
                1, 1, 0, 2, 1, 0, 3, 1, 0, 4, 1, 0, 5, 1, 0, 13, 1, 0, 6, 1, 0, 7, 1, 0, 8, 1, 0,
                9, 1, 0, 12, 1, 0, 10, 1, 0, 11, 1, 0,
            ],
            Some(10..11),
        ),
        (&[3, 1, 0, 10, 1, 0], None),
        (&[1, 0x81, 0x80, 0x80, 0x80, 0, 0], Some(14..15)),
        (&[0, 2, 1, 0x61, 1, 4, 1, 0x60, 0, 0], Some(14..18)),
    ];
    for (bytes, range) in rows {
        assert_eq!(type_section(&module(bytes)), Ok(range));
    }
}

#[test]
fn what_is_no_module_is_refused_where_it_goes_wrong() {
    use Expected::*;
    let rows: [(&[u8], usize, Expected); 13] = [
        (&[14, 1, 0], 8, SectionId),
        (&[1, 0, 0xFF], 10, SectionId),
        (&[1, 1, 0, 1, 1, 0], 11, LaterSection),
        (&[1, 1, 0, 0, 1, 0, 1, 1, 0], 14, LaterSection),
        (&[2, 1, 0, 1, 1, 0], 11, LaterSection),
        (&[6, 1, 0, 13, 1, 0], 11, LaterSection),
        (&[10, 1, 0, 12, 1, 0], 11, LaterSection),
        (&[11, 1, 0, 10, 1, 0], 11, LaterSection),
        (&[10, 1, 0, 10, 1, 0], 11, LaterSection),
        (&[1, 5, 1, 0x60, 0, 0], 14, Content),
        (&[0, 0xFF, 0xFF, 0xFF, 0xFF, 0x0F, 1], 15, Content),
        (&[1, 0x81, 0x80, 0x80, 0x80, 0x80, 0, 0], 13, Integer),
        (&[1, 0x81, 0x80, 0x80, 0x80, 0x10, 0], 13, Integer),
    ];
    let rows = rows.map(|(sections, offset, expected)| (module(sections), offset, expected));
    let headers: [(&[u8], usize, Expected); 4] = [
        (b"(module)", 0, Magic),
        (b"\0asn\x01\0\0\0", 3, Magic),
        (b"\0asm\x0D\0\x01\0", 4, Version),
        (b"\0asm\x01\0\0\x01", 7, Version),
    ];
    let headers = headers.map(|(bytes, offset, expected)| (bytes.to_vec(), offset, expected));
    for (bytes, offset, expected) in rows.into_iter().chain(headers) {
        assert_eq!(type_section(&bytes), malformed(offset, expected));
        assert_eq!(sections(&bytes).err(), Some(DecodeError::Malformed { offset, expected }));
        assert_eq!(strip_descriptions(&bytes), malformed(offset, expected));
        assert_eq!(find_unknown_custom(&bytes, &[]), malformed(offset, expected));
        assert_eq!(find_unread_names(&bytes, 0), malformed(offset, expected));
        assert_eq!(check_module(&bytes, 0), Err(RenameError::Malformed { offset }));
        assert_eq!(named_types(&bytes), Err(ScanError::Malformed { offset }));
    }
}

#[test]
fn each_beginning_of_a_module_lacks_only_more_bytes() {
    use Expected::*;
    // a custom section, a type section and a function section
    let bytes = module(&[0, 2, 1, 0x61, 1, 4, 1, 0x60, 0, 0, 3, 2, 1, 0]);
    for offset in 0..bytes.len() {
        let wanted = match offset {
            0..=3 => Some(Magic),
            4..=7 => Some(Version),
            9 | 13 | 19 => Some(Integer),
            10 | 11 | 14..=17 | 20..=21 => Some(Content),
            _ => None,
        };
        let error = wanted.map(|expected| DecodeError::Malformed { offset, expected });
        assert_eq!(type_section(&bytes[..offset]).err(), error);
    }
}

#[test]
fn sections_come_in_order_and_their_sizes_may_be_padded() {
    let bytes = module(&[0, 0x82, 0x80, 0, 1, 0x61, 5, 0x80, 0, 10, 3, 1, 0, 0, 0, 1, 0]);
    let found = sections(&bytes).expect("a module");
    let found: Vec<_> = found.map(|it| (it.id, it.offset, it.content_offset, it.content)).collect();
    let wanted: [(u8, usize, usize, &[u8]); 4] =
        [(0, 8, 12, &[1, 0x61]), (5, 14, 17, &[]), (10, 17, 19, &[1, 0, 0]), (0, 22, 24, &[0])];
    assert_eq!(found, wanted);
    assert_eq!(sections(&bytes[..8]).expect("a module").count(), 0);
}

#[test]
fn sections_without_a_name_have_none() {
    let rows: [&[u8]; 8] = [
        &[],
        &[0],
        &[1, 3, 2, 0x68, 0x69],
        &[0, 0],
        // a name that goes past the section, and one past the end of the bytes
        &[0, 2, 2, 0x68, 0x69],
        &[0, 3, 2, 0x68],
        // sizes that are no integers
        &[0, 0x80],
        &[0, 3, 0x80, 0x80, 0x80],
    ];
    for bytes in rows {
        assert_eq!(custom_section_name(bytes), None);
    }
}
