//! Sections have their normal form or are refused, and tables and types show what they have.
use Definition::*;
use Grouping::*;
use ruffdresser::arena::HashKeys;
use ruffdresser::types::*;

/// A final definition: a function type, a struct of an `i32`, or one of a reference to an index.
#[derive(Clone, Copy)]
enum Definition {
    Plain,
    Struct,
    Naming(u32),
}

/// Whether an entry is a lone type, begins a `Rec`, or goes on with the group before it.
#[derive(Clone, Copy, PartialEq)]
enum Grouping {
    Lone,
    Begins,
    GoesOn,
}

type Entry = (Definition, Grouping);

fn record(definition: Definition) -> EntryAt {
    let structure = |of| {
        let field = FieldAt { element_type: StorageAt::Val(of), mutable: false };
        CompAt::Struct { fields: Listed::from(vec![field]) }
    };
    let comp = match definition {
        Plain => CompAt::Function { params: Listed::default(), results: Listed::default() },
        Struct => structure(ValAt::I32),
        Naming(index) => {
            let heap_type = HeapAt::Concrete(index);
            structure(ValAt::Ref(RefAt { nullable: true, heap_type }))
        }
    };
    EntryAt { comp, is_final: true, supertype: None }
}

fn groups(entries: &[Entry]) -> impl Iterator<Item = &[Entry]> {
    entries.chunk_by(|_, (_, grouping)| *grouping == GoesOn)
}

fn section(entries: &[Entry]) -> Vec<GroupAt> {
    let group = |group: &[Entry]| match *group {
        [(definition, Lone)] => GroupAt::Single(record(definition)),
        _ => GroupAt::Rec(group.iter().map(|&(definition, _)| record(definition)).collect()),
    };
    groups(entries).map(group).collect()
}

/// The first entry that names an index past its group.
fn refusal(entries: &[Entry]) -> Option<ReadError> {
    let mut ends = vec![];
    for group in groups(entries) {
        ends.resize(ends.len() + group.len(), (ends.len() + group.len()) as u32);
    }
    (0..).zip(entries).zip(ends).find_map(|((entry, &(definition, _)), end)| match definition {
        Naming(index) if index >= end => Some(ReadError::BadIndex { entry, index, end }),
        _ => None,
    })
}

fn has_its_normal_form_or_is_refused(entries: &[Entry]) {
    let groups = section(entries);
    let normal = normalise(HashKeys::fixed(), &groups);
    assert_eq!(normalise_by_table(HashKeys::fixed(), &groups), normal);
    assert_eq!(normal.as_ref().err().copied(), refusal(entries));
    if let Ok((output, map)) = normal {
        assert!(is_normal_form(&groups, &output, &map));
        assert!(!is_normal_form(&groups, &[], &map));
        assert!(!is_normal_form(&groups, &[], &[]));
    }
}

#[test]
fn each_section_of_up_to_three_entries_has_its_normal_form_or_is_refused() {
    let entries: Vec<Entry> = [Plain, Struct, Naming(0), Naming(1), Naming(2)]
        .into_iter()
        .flat_map(|definition| [Lone, Begins, GoesOn].map(|grouping| (definition, grouping)))
        .collect();
    for &first in &entries {
        has_its_normal_form_or_is_refused(&[first]);
        for &second in &entries {
            has_its_normal_form_or_is_refused(&[first, second]);
            for &third in &entries {
                has_its_normal_form_or_is_refused(&[first, second, third]);
            }
        }
    }
}

#[test]
fn a_section_is_refused_before_the_first_unknown_root() {
    let refusal = |entries: &[Entry], roots: &[u32]| {
        canonicalise(HashKeys::fixed(), section(entries), Some(roots)).err()
    };
    let unknown = CanonicalError::UnknownRoot { index: 5 };
    assert_eq!(refusal(&[(Plain, Lone), (Struct, Lone)], &[1, 5, 7]), Some(unknown));
    let bad = ReadError::BadIndex { entry: 1, index: 2, end: 2 };
    let refused = Some(CanonicalError::Section(bad));
    assert_eq!(refusal(&[(Plain, Lone), (Naming(2), Lone)], &[5]), refused);
}

#[test]
fn entries_of_all_groups_are_counted() {
    assert_eq!(entry_count(&[]), Ok(0));
    let several =
        [(Plain, Lone), (Struct, Begins), (Plain, GoesOn), (Naming(2), GoesOn), (Plain, Lone)];
    let mut several = section(&several);
    several.insert(1, GroupAt::Rec(Listed::default()));
    assert_eq!(entry_count(&several), Ok(5));
    let bad = section(&[(Plain, Lone), (Plain, Begins), (Naming(3), GoesOn), (Plain, Lone)]);
    assert_eq!(entry_count(&bad), Err(ReadError::BadIndex { entry: 2, index: 3, end: 3 }));
}

#[test]
fn no_moves_change_a_supertype() {
    let with = |supertype| {
        let above = EntryAt { is_final: false, ..record(Plain) };
        [above, EntryAt { supertype, ..record(Struct) }].map(GroupAt::Single)
    };
    let same = same_up_to_moves(HashKeys::fixed(), &with(None), &with(Some(0)));
    assert_eq!(same, Ok(false));
}

#[test]
fn only_live_types_are_listed() {
    let mut types = ModuleTypes::default();
    let ids = [vec![], vec![Val::I32], vec![Val::I64]].map(|params| types.add(&params, &[]));
    types.delete(ids[1]);
    assert!(types.iter().map(Type::id).eq([ids[0], ids[2]]));
}

#[test]
fn a_type_lends_its_lists() {
    let mut types = ModuleTypes::default();
    let id = types.add(&[Val::I32], &[Val::F32, Val::F64]);
    let mut ty = types.get(id).clone();
    assert_eq!(ty.params(), [Val::I32]);
    assert_eq!(ty.results(), [Val::F32, Val::F64]);
    let function = || CompositeType::Function(FunctionType::new(vec![], vec![]));
    *ty.kind_mut() = function();
    assert_eq!(*ty.kind(), function());
}
