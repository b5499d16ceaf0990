//! Indexes, which are written here by docs/reference/INDEX.md alone.

use gimli_line_proved::{Addresses, Error, Index, NoPath};

/// Two ranges of a file each, from 0x1000 and from 0x1010 on, a gap from 0x1020 on; the second file has no path, for the reason 4.
fn small_index() -> Vec<u8> {
    let mut index = b"LINEIDX\0".to_vec();
    index.extend(2u32.to_le_bytes());
    index.extend([8, 0, 4, 0]);
    index.extend(0x1000u64.to_le_bytes());
    for size in [3u32, 2, 5, 2, 1, 0] {
        index.extend(size.to_le_bytes());
    }
    // The number of the name a.c is (97 * 31 + 46) * 31 + 99; a file without a path has 0.
    for (unit, size, reason, name) in [(7u64, 4u32, 0u32, 94_742u32), (9, 0, 4, 0)] {
        index.extend(unit.to_le_bytes());
        for number in [0, size, reason, name] {
            index.extend(number.to_le_bytes());
        }
    }
    for start in [0u32, 0x10, 0x20] {
        index.extend(start.to_le_bytes());
    }
    // The first is a statement, and the prologue ends at the second.
    for entry in [[0, 5, 2 | 1 << 31], [1, 6, 1 << 30], [u32::MAX, 0, 0]] {
        entry.iter().for_each(|number| index.extend(number.to_le_bytes()));
    }
    // One statement: its source, its line, and its address above the base.
    [0u32, 5, 0].iter().for_each(|number| index.extend(number.to_le_bytes()));
    index.extend(b"/a.c\0id");
    index
}

#[test]
fn places_are_those_of_the_index() {
    let bytes = small_index();
    let index = Index::open(&bytes).expect("it is an index");
    assert_eq!(index.check(), Ok(()));
    assert_eq!((index.len(), index.is_empty(), index.identity(), index.address_size()), (3, false, &b"id"[..], 8));
    let place = index.find(0x100f).expect("it is known");
    assert_eq!((place.path, place.line, place.column, place.unit, place.is_stmt), (Ok(&b"/a.c"[..]), 5, 2, 7, true));
    assert!(!place.prologue_end);
    assert_eq!((place.first, place.end), (0x1000, Some(0x1010)));
    let place = index.find(0x1010).expect("it is known");
    assert_eq!((place.path, place.line, place.unit, place.is_stmt), (Err(NoPath::Reason(4)), 6, 9, false));
    assert!(place.prologue_end && place.column == 0);
    assert_eq!((place.first, place.end), (0x1010, Some(0x1020)));
    assert_eq!([0, 0xfff, 0x1020, u64::MAX].map(|address| index.find(address)), [None; 4]);
    let addresses = [0xfff, 0x1000, 0x101f, 0x1020];
    assert_eq!(index.find_all(&addresses), addresses.map(|address| index.find(address)));
    assert_eq!(index.find_all(&[]), []);
}

#[test]
fn ranges_are_those_of_the_index() {
    let mut bytes = small_index();
    let ranges = |bytes: &[u8]| -> Vec<_> {
        let index = Index::open(bytes).expect("it is an index");
        index.ranges().map(|range| (range.first, range.end, range.place.map(|place| (place.line, place.path.ok().map(<[u8]>::to_vec))))).collect()
    };
    let (first, second) = (Some((5, Some(b"/a.c".to_vec()))), Some((6, None)));
    let wanted = [(0x1000, Some(0x1010), first), (0x1010, Some(0x1020), second.clone()), (0x1020, None, None)];
    assert_eq!(ranges(&bytes), wanted);
    // The first two starts have one address: the second holds. They stand from byte 96 on.
    bytes[100] = 0;
    assert_eq!(ranges(&bytes), [(0x1000, Some(0x1020), second.clone()), (0x1020, None, None)]);
    // And that address is 0, since the base at byte 16 is.
    bytes[17] = 0;
    assert_eq!(ranges(&bytes), [(0, Some(0x20), second), (0x20, None, None)]);
}

#[test]
fn addresses_of_a_line_are_those_of_the_index() {
    let bytes = small_index();
    let index = Index::open(&bytes).expect("it is an index");
    let first = Some(Addresses { line: 5, addresses: vec![0x1000] });
    assert_eq!(index.addresses_of(b"a.c", 0), first);
    assert_eq!(index.addresses_of(b"/x/../a.c", 5), first);
    // No line after it, no file of this name, one from the root that has other components, and paths without a component.
    for path in [&b"a.c"[..], b"b.c", b"/x/a.c", b"", b"./"] {
        assert_eq!(index.addresses_of(path, 5 + u64::from(path == b"a.c")), None);
    }
}

#[test]
fn threads_share_one_index() {
    let bytes = small_index();
    let index = Index::open(&bytes).expect("it is an index");
    std::thread::scope(|scope| {
        for number in 0..8u64 {
            let index = &index;
            scope.spawn(move || {
                for round in 0..10_000u64 {
                    let address = 0xff0 + (number * 7 + round) % 0x40;
                    let line = index.find(address).map(|place| place.line);
                    assert_eq!(line, [None, Some(5), Some(6), None][((address - 0xff0) / 0x10) as usize]);
                }
            });
        }
    });
}

#[test]
fn what_is_no_index_is_refused() {
    let mut bytes = small_index();
    for length in 0..bytes.len() {
        let error = Index::open(&bytes[..length]).map(|_| ()).expect_err("it is cut");
        assert!(error == Error::NO_INDEX && length < 8 || error == Error::INDEX_CUT && length >= 8);
    }
    bytes[8] = 1;
    assert_eq!(Index::open(&bytes).map(|_| ()), Err(Error::UNKNOWN_INDEX_VERSION));
    bytes[8] = 2;
    bytes[12] = 3;
    assert_eq!(Index::open(&bytes).map(|_| ()), Err(Error::INDEX_HEADER));
    bytes[12] = 8;
    // The third start is below the second; then a path that ends behind the part of paths, and one that no zero byte follows.
    bytes[48 + 48 + 8] = 8;
    assert_eq!(Index::open(&bytes).expect("it is an index").check(), Err(Error::INDEX_DISORDERED));
    bytes[48 + 48 + 8] = 0x20;
    for size in [5, 3] {
        bytes[48 + 12] = size;
        let index = Index::open(&bytes).expect("it is an index");
        assert_eq!(index.check(), Err(Error::INDEX_PATH_OUTSIDE));
        assert_eq!(index.find(0x1000).map(|place| place.path), Some(Err(NoPath::Outside)));
    }
}
