//! Types that the parts of modules name are found, get other indices, and what names them is written again.
use ruffdresser::wasm::*;

/// The module of these sections.
fn module(sections: &[u8]) -> Vec<u8> {
    [b"\0asm\x01\0\0\0", sections].concat()
}

#[test]
fn expressions_name_types() {
    let rows: [(&[u8], &[u32]); 12] = [
        (&[0x0B], &[]),
        // call_indirect, return_call_indirect, call_ref, return_call_ref
        (&[0x11, 3, 0, 0x13, 0x81, 1, 0, 0x14, 1, 0x15, 2, 0x0B], &[3, 129, 1, 2]),
        // block, loop, if, else; the index of the second block is padded
        (
            &[2, 5, 3, 0x40, 4, 0x63, 4, 5, 0x0B, 0x0B, 2, 0x86, 0x80, 0, 0x0B, 0x0B, 0x0B],
            &[5, 4, 6],
        ),
        (&[2, 0x7F, 0x0B, 2, 0x70, 0x0B, 0x0B], &[]),
        // ref.null three times, ref.test
        (&[0xD0, 7, 0xD0, 0x70, 0xD0, 0x62, 9, 0xFB, 20, 0xC0, 0, 0x0B], &[7, 9, 64]),
        // struct.new, struct.get, array.new_fixed, array.copy, array.len
        (
            &[0xFB, 0, 2, 0xFB, 2, 3, 1, 0xFB, 8, 4, 9, 0xFB, 17, 1, 2, 0xFB, 15, 0x0B],
            &[2, 3, 4, 1, 2],
        ),
        // br_on_cast, select, try_table, try with its delegate
        (&[0xFB, 24, 3, 0, 4, 5, 0x0B], &[4, 5]),
        (&[0x1C, 3, 0x63, 4, 0x7F, 0x64, 5, 0x0B], &[4, 5]),
        (&[0x1F, 8, 2, 0, 1, 0, 2, 0, 0x0B, 0x0B], &[8]),
        (&[6, 2, 0x18, 0, 0x0B], &[2]),
        // i32.load of memory 1, v128.load8_lane; i32.const, i64.const, f32.const
        (&[0x28, 0x42, 1, 16, 0xFD, 84, 0, 0, 3, 0x0B], &[]),
        (
            &[0x41, 0xFF, 0xFF, 0xFF, 0xFF, 0x7F, 0x42, 0x80, 0x80, 0, 0x43, 0x11, 3, 0, 0, 0x0B],
            &[],
        ),
    ];
    for (bytes, types) in rows {
        let bytes = [bytes, &[0x0B]].concat();
        let mut input = bytes.as_slice();
        assert_eq!(expression_types(&mut input).as_deref(), Ok(types));
        assert_eq!(input, [0x0B]);
    }
    assert_eq!(body_types(&[2, 2, 0x63, 3, 1, 0x7F, 0x14, 4, 0x0B]), Ok(vec![3, 4]));
    assert_eq!(body_types(&[0, 0x0B, 0x0B]), Err(ScanError::Malformed { offset: 2 }));
}

#[test]
fn a_refused_expression_is_not_taken() {
    let rows: [&[u8]; 13] = [
        &[],
        &[2, 0x40, 0x0B],
        &[0x11, 3],
        // flags of br_on_cast, and a clause of try_table
        &[0xFB, 24, 4, 0, 4, 5, 0x0B],
        &[0x1F, 8, 1, 4, 0, 0x0B, 0x0B],
        // an alignment of two bytes, and a constant of 33 bits
        &[0x28, 0x80, 1, 16, 0x0B],
        &[0x41, 0xFF, 0xFF, 0xFF, 0xFF, 0x4F, 0x0B],
        // numbers between instructions
        &[0xFD, 0x9A, 1, 0x0B],
        &[0xFD, 0x94, 2, 0x0B],
        &[0xFC, 18, 0x0B],
        &[0x27, 0x0B],
        // a delegate without its try, and an end too few
        &[0x18, 0, 0x0B],
        &[3, 0x40, 4, 0x40, 0x0B, 0x0B],
    ];
    for bytes in rows {
        let mut input = bytes;
        assert!(matches!(expression_types(&mut input), Err(ScanError::Malformed { .. })));
        assert_eq!(input, bytes);
    }
}

/// Contents by the ids of their sections, and the types that they name.
const CONTENTS: [(u8, &[u8], &[u32]); 9] = [
    // a function, a table, a memory, a global, a tag
    (
        2,
        &[
            5, 1, 0x61, 1, 0x62, 0, 5, 0, 0, 1, 0x63, 3, 1, 1, 2, 0, 1, 0x62, 2, 3, 1, 2, 2, 0x61,
            0x62, 0, 3, 0x64, 4, 1, 0, 0, 4, 0, 6,
        ],
        &[5, 3, 4, 6],
    ),
    (3, &[3, 0, 2, 0x81, 0x80, 0], &[0, 2, 1]),
    // one with an expression, one of 64 bits
    (
        4,
        &[3, 0x63, 5, 0, 1, 0x40, 0, 0x64, 6, 1, 1, 9, 0xD0, 7, 0x0B, 0x70, 4, 0x80, 1],
        &[5, 6, 7],
    ),
    (
        6,
        &[3, 0x7F, 0, 0x41, 1, 0x0B, 0x63, 2, 1, 0xD0, 3, 0x0B, 0x69, 0, 0xD0, 0x69, 0x0B],
        &[2, 3],
    ),
    // forms 0 to 3, and 4 to 7
    (
        9,
        &[
            4, 0, 0xD0, 9, 0xD1, 0x0B, 2, 0, 1, 1, 0, 1, 4, 2, 1, 0xD0, 8, 0xD1, 0x0B, 0, 1, 4, 3,
            0, 0,
        ],
        &[9, 8],
    ),
    (
        9,
        &[
            4, 4, 0x41, 0, 0x0B, 2, 0xD0, 1, 0x0B, 0xD2, 0, 0x0B, 5, 0x63, 2, 1, 0xD0, 2, 0x0B, 6,
            1, 0xD0, 7, 0xD1, 0x0B, 0x64, 3, 1, 0xD0, 6, 0x0B, 0x87, 0, 0x63, 4, 0,
        ],
        &[1, 2, 2, 7, 3, 6, 4],
    ),
    (10, &[2, 5, 1, 1, 0x63, 3, 0x0B, 0x84, 0x80, 0, 0, 0x14, 4, 0x0B], &[3, 4]),
    // bytes of data look like ref.null
    (
        11,
        &[3, 0, 0xD0, 9, 0xD1, 0x0B, 3, 0xD0, 4, 0x0B, 1, 2, 0xD0, 8, 2, 1, 0xD0, 7, 0xD1, 0x0B, 0],
        &[9, 7],
    ),
    (13, &[2, 0, 1, 0, 0x82, 0], &[1, 2]),
];

#[test]
fn contents_of_sections_name_types_and_lack_only_bytes_where_they_are_cut_off() {
    let same: Vec<_> = (0..10).map(Some).collect();
    for (id, content, types) in CONTENTS {
        assert_eq!(section_types(id, content).as_deref(), Ok(types));
        assert_eq!(rename_section(id, content, &same, Widths::Kept).as_deref(), Ok(content));
        for offset in 0..content.len() {
            let cut = &content[..offset];
            assert_eq!(section_types(id, cut), Err(ScanError::Malformed { offset }));
            let error = rename_section(id, cut, &same, Widths::Kept).err();
            assert_eq!(error, Some(RenameError::Malformed { offset }));
        }
    }
    for id in [0, 1, 5, 7, 8, 12, 14, 255] {
        assert_eq!(section_types(id, &[0xFF, 0x60]), Ok(vec![]));
        assert_eq!(rename_section(id, &[0xFF, 0x60], &[], Widths::Shortest), Ok(vec![0xFF, 0x60]));
    }
}

#[test]
fn contents_are_refused_where_they_go_wrong() {
    let rows: [(u8, &[u8], usize); 17] = [
        // a kind of import, a byte of a tag, a mutability, flags of a memory and of a table
        (2, &[1, 0, 0, 5, 0], 3),
        (2, &[1, 0, 0, 4, 1, 0], 4),
        (2, &[1, 0, 0, 3, 0x7F, 2], 5),
        (2, &[1, 0, 0, 2, 16, 0], 4),
        (2, &[1, 0, 0, 1, 0x70, 2, 0], 5),
        // a name that is longer than the content, and a byte too many
        (2, &[1, 0, 9, 0, 1], 5),
        (2, &[1, 0, 0, 0, 1, 0], 5),
        // integers of more bits than they may have
        (3, &[1, 0xFF, 0xFF, 0xFF, 0xFF, 0x10], 5),
        (6, &[1, 0x63, 0x80, 0x80, 0x80, 0x80, 0x10, 0, 0x0B], 6),
        (6, &[1, 0x7F, 0, 0x41, 0x80, 0x80, 0x80, 0x80, 0x08, 0x0B], 8),
        // a table of numbers, forms of segments, of which one is padded
        (4, &[1, 0x7F, 0, 0], 1),
        (9, &[1, 8, 0], 1),
        (9, &[1, 0x88, 0, 0], 1),
        (11, &[1, 3], 1),
        // a byte that is no instruction, a body that ends too soon, and one that goes on
        (10, &[2, 2, 0, 0x0B, 3, 0, 0xFF, 0x0B], 6),
        (10, &[1, 3, 0, 0x0B, 0x0B], 4),
        (10, &[1, 1, 0, 0x0B], 3),
    ];
    for (id, content, offset) in rows {
        assert_eq!(section_types(id, content), Err(ScanError::Malformed { offset }));
        let error = rename_section(id, content, &[Some(0), Some(1)], Widths::Kept).err();
        assert_eq!(error, Some(RenameError::Malformed { offset }));
    }
}

#[test]
fn each_section_names_its_types_in_order() {
    // one section of each kind; the types name type 0, and the section `name` at the end type 3
    let bytes = module(&[
        1, 6, 1, 0x5F, 1, 0x63, 0, 0, 2, 5, 1, 0, 0, 0, 1, 3, 3, 2, 2, 2, 4, 5, 1, 0x63, 3, 0, 1,
        5, 3, 1, 0, 1, 13, 3, 1, 0, 4, 6, 7, 1, 0x63, 5, 0, 0xD0, 5, 0x0B, 7, 5, 1, 1, 0x61, 0, 0,
        8, 1, 0, 9, 5, 1, 5, 0x63, 6, 0, 12, 1, 1, 10, 11, 2, 4, 0, 0x14, 7, 0x0B, 4, 0, 0xD0, 8,
        0x0B, 11, 8, 1, 0, 0xD0, 9, 0xD1, 0x0B, 1, 0xD0, 0, 11, 4, 0x6E, 0x61, 0x6D, 0x65, 4, 4, 1,
        3, 1, 0x61,
    ]);
    assert_eq!(named_types(&bytes), Ok(vec![1, 2, 2, 3, 4, 5, 5, 6, 7, 8, 9]));
    assert_eq!(named_types(&module(&[])), Ok(vec![]));
}

/// An instruction with an index, where type 0 gets this one.
fn renamed(opcode: u8, text: &[u8], index: u32, widths: Widths) -> Vec<u8> {
    let code = [&[opcode], text, &[0x0B]].concat();
    rename_expression(&mut code.as_slice(), &[Some(index)], widths).expect("an expression")
}

#[test]
fn indices_have_as_many_bytes_as_they_need_or_had() {
    use Widths::*;
    let padded = [0x80, 0x80, 0x80, 0x80, 0].as_slice();
    // the text of a u32, and of an s33
    let rows: [(&[u8], u32, Widths, &[u8], &[u8]); 11] = [
        (&[0], 63, Shortest, &[63], &[63]),
        (&[0], 64, Shortest, &[64], &[0xC0, 0]),
        (&[0], 127, Shortest, &[0x7F], &[0xFF, 0]),
        (&[0], 128, Shortest, &[0x80, 1], &[0x80, 1]),
        (&[0], 8191, Shortest, &[0xFF, 0x3F], &[0xFF, 0x3F]),
        (&[0], 8192, Kept, &[0x80, 0x40], &[0x80, 0xC0, 0]),
        (&[0], 16384, Kept, &[0x80, 0x80, 1], &[0x80, 0x80, 1]),
        (&[0], u32::MAX, Kept, &[0xFF, 0xFF, 0xFF, 0xFF, 0x0F], &[0xFF, 0xFF, 0xFF, 0xFF, 0x0F]),
        (padded, 5, Kept, &[0x85, 0x80, 0x80, 0x80, 0], &[0x85, 0x80, 0x80, 0x80, 0]),
        (padded, 5, Shortest, &[5], &[5]),
        (&[0x80, 0], 63, Kept, &[0xBF, 0], &[0xBF, 0]),
    ];
    for (text, index, widths, call_ref, ref_null) in rows {
        assert_eq!(renamed(0x14, text, index, widths), [&[0x14], call_ref, &[0x0B]].concat());
        assert_eq!(renamed(0xD0, text, index, widths), [&[0xD0], ref_null, &[0x0B]].concat());
    }
}

#[test]
fn what_is_behind_an_expression_is_left() {
    let mut input = [0xD0, 2, 0x0B, 0xD0, 3, 0x0B].as_slice();
    let new = rename_expression(&mut input, &[None, None, Some(12)], Widths::Shortest);
    assert_eq!((new, input), (Ok(vec![0xD0, 12, 0x0B]), [0xD0, 3, 0x0B].as_slice()));
}

#[test]
fn the_first_fault_of_code_decides() {
    type Fault = fn(usize) -> RenameError;
    let rows: [(&[u8], usize, Fault); 3] = [
        // ref.null of type 0, of one that is deleted or not there, and no instruction
        (&[0xD0, 0, 0xD0, 1, 0xFF], 3, |offset| RenameError::UnknownType { index: 1, offset }),
        (&[0xD0, 0, 0xD0, 2, 0xFF], 3, |offset| RenameError::UnknownType { index: 2, offset }),
        (&[0xD0, 0, 0xFF, 0xD0, 1], 2, |offset| RenameError::Malformed { offset }),
    ];
    for (bytes, place, fault) in rows {
        let new_indices = [Some(4), None];
        let mut input = bytes;
        let new = rename_expression(&mut input, &new_indices, Widths::Shortest);
        assert_eq!((new, input), (Err(fault(place)), bytes));
        // behind locals of i32, and in a section of one body
        let body = [&[1, 1, 0x7F], bytes].concat();
        assert_eq!(rename_body(&body, &new_indices, Widths::Kept), Err(fault(place + 3)));
        let content = [&[1, 8], body.as_slice()].concat();
        assert_eq!(rename_section(10, &content, &new_indices, Widths::Kept), Err(fault(place + 5)));
    }
}

#[test]
fn the_first_fault_of_a_module_decides() {
    let malformed = |offset| RenameError::Malformed { offset };
    let unknown = |index, offset| RenameError::UnknownType { index, offset };
    // a type, functions of types 0 and 1, a custom section, and two bodies, one with no instruction
    let several: &[u8] = &[
        1, 4, 1, 0x60, 0, 0, 3, 0x83, 0, 2, 0, 1, 0, 2, 1, 0x61, 10, 8, 2, 2, 0, 0x0B, 3, 0, 0xFF,
        0x0B,
    ];
    let rows: [(&[u8], u32, RenameError); 6] = [
        (several, 1, unknown(1, 19)),
        (several, 2, malformed(32)),
        // a function of type 0, and a code section that is cut off or not there
        (&[3, 2, 1, 0, 10, 5], 0, malformed(14)),
        (&[3, 2, 1, 0], 0, unknown(0, 11)),
        // a function of type 5 before no instruction, and a byte too many before call_ref 5
        (&[3, 2, 1, 5, 10, 5, 1, 3, 0, 0xFF, 0x0B], 1, unknown(5, 11)),
        (&[3, 3, 1, 0, 0, 10, 6, 1, 4, 0, 0x14, 5, 0x0B], 1, malformed(12)),
    ];
    for (sections, count, error) in rows {
        assert_eq!(check_module(&module(sections), count), Err(error));
    }
    assert_eq!(check_module(&module(&several[..16]), 2), Ok(()));
    let rows: [(&[u8], usize); 3] = [
        (&[3, 3, 1, 0, 0], 12),
        (&[10, 8, 2, 2, 0, 0x0B, 3, 0, 0xFF, 0x0B], 16),
        (&[10, 8, 2, 2], 12),
    ];
    for (sections, offset) in rows {
        assert_eq!(named_types(&module(sections)), Err(ScanError::Malformed { offset }));
    }
}

/// Each body calls a function of type 0, which gets this index.
#[test]
fn a_size_that_spans_an_index_is_written_again() {
    let rows: [(&[u8], u32, &[u8], &[u8]); 3] = [
        (&[4, 0, 0x14, 0], 128, &[5, 0, 0x14, 0x80, 1], &[5, 0, 0x14, 0x80, 1]),
        (&[0x84, 0, 0, 0x14, 0], 128, &[5, 0, 0x14, 0x80, 1], &[0x85, 0, 0, 0x14, 0x80, 1]),
        (&[0x84, 0, 0, 0x14, 0], 0, &[4, 0, 0x14, 0], &[0x84, 0, 0, 0x14, 0]),
    ];
    for (body, index, shortest, kept) in rows {
        let content = |body: &[u8]| [&[1], body, &[0x0B]].concat();
        let rename = |widths| rename_section(10, &content(body), &[Some(index)], widths);
        assert_eq!(rename(Widths::Shortest), Ok(content(shortest)));
        assert_eq!(rename(Widths::Kept), Ok(content(kept)));
    }
    // a body of 127 bytes gets one more
    let long = |size: &[u8], index: &[u8]| {
        [&[1], size, &[0, 0x14], index, [1; 123].as_slice(), &[0x0B]].concat()
    };
    let new = rename_section(10, &long(&[127], &[0]), &[Some(128)], Widths::Shortest);
    assert_eq!(new, Ok(long(&[0x80, 1], &[0x80, 1])));
}

#[test]
fn counts_and_sizes_that_span_no_index_stay() {
    let rows: [(u8, &[u8], &[u8]); 5] = [
        (10, &[1, 0x82, 0x80, 0, 0, 0x0B], &[1, 0x82, 0x80, 0, 0, 0x0B]),
        (
            10,
            &[2, 0x82, 0, 0, 0x0B, 0x84, 0, 0, 0x14, 0, 0x0B],
            &[2, 0x82, 0, 0, 0x0B, 4, 0, 0x14, 3, 0x0B],
        ),
        (
            10,
            &[2, 0x84, 0, 0, 0x14, 0, 0x0B, 0x82, 0, 0, 0x0B],
            &[2, 4, 0, 0x14, 3, 0x0B, 0x82, 0, 0, 0x0B],
        ),
        (10, &[0x81, 0x80, 0, 4, 0, 0x14, 0, 0x0B], &[0x81, 0x80, 0, 4, 0, 0x14, 3, 0x0B]),
        (3, &[0x82, 0, 0, 0], &[0x82, 0, 3, 3]),
    ];
    for (id, content, expected) in rows {
        let new = rename_section(id, content, &[Some(3)], Widths::Shortest);
        assert_eq!(new.as_deref(), Ok(expected));
    }
}

#[test]
fn a_deleted_type_may_be_named_in_the_name_section_alone() {
    // two types, a function of the second one, and names of both
    let mut bytes = module(
        b"\x01\x06\x02\x5F\0\x60\0\0\x03\x02\x01\x01\0\x0E\x04name\x04\x07\x02\0\x01a\x01\x01b",
    );
    let expected = module(b"\x01\x04\x01\x60\0\0\x03\x02\x01\0\0\x0B\x04name\x04\x04\x01\0\x01b");
    let rename =
        |bytes: &[u8]| rename_module(bytes, &[1, 0x60, 0, 0], &[None, Some(0)], Widths::Shortest);
    assert_eq!(rename(&bytes), Ok(expected));
    bytes[19] = 0;
    assert_eq!(rename(&bytes), Err(RenameError::UnknownType { index: 0, offset: 19 }));
}
