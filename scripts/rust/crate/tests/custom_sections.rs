//! Custom sections: names follow their types, and the others are told by what they describe.
use ruffdresser::arena::HashKeys;
use ruffdresser::wasm::*;

/// The module of these sections.
fn module(sections: &[u8]) -> Vec<u8> {
    [b"\0asm\x01\0\0\0", sections].concat()
}

/// The content of a custom section `name` with these subsections.
fn names(subsections: &[u8]) -> Vec<u8> {
    [b"\x04name", subsections].concat()
}

#[test]
fn names_follow_their_types() {
    let rows: [(&[u8], &[Option<u32>], &[u8]); 5] = [
        // of several types that become one, the first names stay
        (
            b"\x04\x0D\x04\x02\x01c\0\x01a\x01\x01b\x03\x01d",
            &[Some(5), Some(4), Some(5), Some(4)],
            b"\x04\x07\x02\x04\x01b\x05\x01a",
        ),
        (b"\x04\x07\x02\x01\x01x\x01\x01y", &[Some(0), Some(0)], b"\x04\x04\x01\0\x01x"),
        // names of fields
        (
            b"\x0A\x0E\x02\0\x02\0\x01f\x01\x01g\x01\x01\x03\x01h",
            &[Some(1), Some(0)],
            b"\x0A\x0E\x02\0\x01\x03\x01h\x01\x02\0\x01f\x01\x01g",
        ),
        // other subsections, and a padded map without entries
        (
            b"\0\x01\xFF\x01\x04\x01\0\x01f\x04\x04\x01\0\x01a\x0B\x80\0",
            &[Some(7)],
            b"\0\x01\xFF\x01\x04\x01\0\x01f\x04\x04\x01\x07\x01a\x0B\x80\0",
        ),
        (b"\x04\x82\x80\0\x80\0", &[], b"\x04\x82\x80\0\x80\0"),
    ];
    for (subsections, new_indices, expected) in rows {
        let new = rename_custom_section(&names(subsections), new_indices, Widths::Shortest);
        assert_eq!(new, Ok(names(expected)));
    }
    let other = b"\x05names\x04\x63";
    assert_eq!(
        rename_custom_section(other, &[], Widths::Shortest).as_deref(),
        Ok(other.as_slice())
    );
}

#[test]
fn names_of_deleted_types_go() {
    let rows: [(&[u8], &[Option<u32>], &[u8]); 4] = [
        (
            b"\x04\x0A\x03\0\x01a\x01\x01b\x02\x01c",
            &[Some(1), None, Some(0)],
            b"\x04\x07\x02\0\x01c\x01\x01a",
        ),
        (
            b"\x0A\x0B\x02\0\x01\0\x01f\x01\x01\x03\x01h",
            &[None, Some(0)],
            b"\x0A\x06\x01\0\x01\x03\x01h",
        ),
        (b"\x04\x88\0\x82\0\0\x01a\x01\x01b", &[None, None], b"\x04\x01\0"),
        // but not where one is that of a type that is not there
        (b"\x04\x07\x02\0\x01a\x01\x01b", &[None], b"\x04\x07\x02\0\x01a\x01\x01b"),
    ];
    for (subsections, new_indices, expected) in rows {
        let new = rename_custom_section(&names(subsections), new_indices, Widths::Shortest);
        assert_eq!(new, Ok(names(expected)));
    }
}

#[test]
fn maps_of_names_keep_their_widths() {
    let rows: [(&[u8], Option<u32>, &[u8]); 2] = [
        (b"\x04\x86\0\x81\0\x80\0\x01a", Some(3), b"\x04\x86\0\x81\0\x83\0\x01a"),
        (b"\x04\x88\0\x82\0\0\x01a\x01\x01b", None, b"\x04\x82\0\x80\0"),
    ];
    for (subsections, new_index, expected) in rows {
        let new = rename_custom_section(&names(subsections), &[new_index; 2], Widths::Kept);
        assert_eq!(new, Ok(names(expected)));
    }
}

#[test]
fn a_custom_section_begins_with_its_name() {
    let rows: [(&[u8], usize); 6] = [
        (&[], 0),
        (&[0x80], 1),
        (&[0xFF, 0xFF, 0xFF, 0xFF, 0x10], 4),
        (&[1], 1),
        (b"\x04nam", 4),
        (&[5, 0x6E], 2),
    ];
    for (content, offset) in rows {
        let error = rename_custom_section(content, &[], Widths::Kept);
        assert_eq!(error, Err(RenameError::Malformed { offset }));
    }
}

/// Where names can't be read, of a module of 2 types with this section alone.
fn unread_place(content: &[u8]) -> Result<Option<usize>, DecodeError> {
    find_unread_names(&module(&[&[0, content.len() as u8], content].concat()), 2)
}

#[test]
fn names_of_types_that_are_there_can_be_read() {
    let rows: [&[u8]; 7] = [
        &[],
        // names of functions are not looked into, nor are other subsections
        &[1, 2, 9, 9, 11, 0x80, 0],
        &[0, 1, 0xFF, 5, 1, 0xFF, 9, 1, 0xFF],
        &[4, 0x82, 0, 0x80, 0],
        b"\x04\x08\x02\0\x01a\x01\x02bc",
        &[4, 5, 1, 0x81, 0x80, 0, 0],
        b"\x0A\x0E\x02\0\x02\0\x01f\x01\x01g\x01\x01\x03\x01h",
    ];
    for subsections in rows {
        assert_eq!(unread_place(&names(subsections)), Ok(None));
    }
}

#[test]
fn names_that_cant_be_read_are_found_and_stay() {
    let rows: [&[u8]; 16] = [
        // a size that is missing, one that does not end, and one past the end
        &[4],
        &[4, 0x80],
        &[1, 1, 0, 11, 2, 9],
        // names of types that end too early, a byte behind them, and an index of 33 bits
        &[4, 0],
        &[4, 2, 1, 0],
        &[4, 3, 1, 0, 2],
        &[4, 4, 2, 0, 0, 1, 0, 0],
        &[4, 4, 1, 0, 0, 9],
        &[4, 7, 1, 0xFF, 0xFF, 0xFF, 0xFF, 0x10, 0],
        // names of types that are not there
        &[4, 3, 1, 2, 0],
        &[4, 3, 1, 1, 0, 4, 3, 1, 7, 0],
        b"\x0A\x0E\x02\0\x02\0\x01f\x01\x01g\x02\x01\x03\x01h",
        // names of fields that end too early, a byte behind them, and a name in place of them
        &[10, 3, 1, 0, 1],
        &[10, 6, 1, 0, 2, 0, 0, 0x80],
        &[10, 4, 1, 0, 0, 9],
        &[10, 4, 1, 0, 1, 0x61],
    ];
    for content in rows.map(names) {
        assert_eq!(unread_place(&content), Ok(Some(8)));
        let new = rename_custom_section(&content, &[Some(1), Some(0)], Widths::Shortest);
        assert_eq!(new, Ok(content));
    }
}

/// The module of a custom section of this name alone, with the byte 7 behind the name.
fn custom(name: &str) -> Vec<u8> {
    let len = name.len() as u8;
    module(&[&[0, len + 2, len], name.as_bytes(), &[7]].concat())
}

#[test]
fn descriptions_go_by_their_names() {
    use DescriptionKind::*;
    let rows = [
        ("external_debug_info", CodeOffsets),
        (".debug_", CodeOffsets),
        (".debug_info", CodeOffsets),
        ("metadata.code.branch_hint", CodeOffsets),
        ("sourceMappingURL", FileOffsets),
        ("linking", CodeAndData),
        ("reloc.CODE", CodeAndData),
        ("signature", AllBytes),
    ];
    for (name, kind) in rows {
        let bytes = custom(name);
        let content = &bytes[10..];
        assert_eq!(
            (description_kind(0, content), description_kind(1, content)),
            (Some(kind), None)
        );
        assert_eq!(strip_descriptions(&bytes), Ok(module(&[])));
        assert_eq!(find_unknown_custom(&bytes, &[]), Ok(None));
    }
}

#[test]
fn known_sections_go_by_their_names() {
    let known = "name producers target_features dylink.0 build_id";
    for bytes in known.split(' ').map(custom) {
        assert_eq!(strip_descriptions(&bytes).as_ref(), Ok(&bytes));
        assert_eq!(find_unknown_custom(&bytes, &[]), Ok(None));
    }
    // the empty name is unknown too
    let unknown = " .x Name nam names link linking2 signature2 dylink.1 dylink.01 producer \
        producers2 target_features2 build_ids debug_info .debug a.debug_info reloc reloc_CODE \
        metadata.code";
    for name in unknown.split(' ') {
        let bytes = custom(name);
        assert_eq!(description_kind(0, &bytes[10..]), None);
        assert_eq!(strip_descriptions(&bytes).as_ref(), Ok(&bytes));
        assert_eq!(find_unknown_custom(&bytes, &[]), Ok(Some(8)));
        assert_eq!(find_unknown_custom(&bytes, &[b"y", name.as_bytes()]), Ok(None));
    }
}

#[test]
fn a_custom_section_without_a_whole_name_is_kept_and_unknown() {
    for section in [b"\0\0".as_slice(), b"\0\x01\x87", b"\0\x04\x04nam", b"\0\x07\x07linkin"] {
        let bytes = module(section);
        assert_eq!(strip_descriptions(&bytes).as_ref(), Ok(&bytes));
        assert_eq!(find_unknown_custom(&bytes, &[]), Ok(Some(8)));
    }
}

#[test]
fn a_hazard_comes_behind_what_is_refused() {
    let strict = |bytes: &[u8]| {
        strict_canonical_module(HashKeys::fixed(), bytes, NormaliseOptions::default(), &[])
    };
    // a function of a type that is not there, and a section `x`
    let bytes = module(b"\x01\x04\x01\x60\0\0\x03\x02\x01\x01\0\x02\x01x");
    let error = NormaliseModuleError::UnknownType { index: 1, count: 1, offset: 17 };
    assert_eq!(strict(&bytes), Err(StrictError::Refused(error)));
    assert_eq!(find_hazard(&bytes, &[]), Ok(Some(Hazard::UnknownSection { offset: 18 })));
    // `name` with a name of type 1, and `x`
    let bytes = module(b"\x01\x04\x01\x60\0\0\0\x0A\x04name\x04\x03\x01\x01\0\0\x02\x01x");
    assert_eq!(find_hazard(&bytes, &[]), Ok(Some(Hazard::UnknownSection { offset: 26 })));
    let unread = Hazard::UnreadNames { offset: 14 };
    assert_eq!(find_hazard(&bytes, &[b"x", b"name"]), Ok(Some(unread)));
}
