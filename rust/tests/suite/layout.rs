//! The structs that cross the C boundary, as the header has them.

use std::mem::{align_of, offset_of, size_of};

use jiehkavon::words::{Answer, Batch, Built, Read, Stretch, Written};

#[test]
fn sizes() {
    assert_eq!([size_of::<Answer>(), size_of::<Built>(), size_of::<Stretch>()], [16, 12, 8]);
    assert_eq!([align_of::<Answer>(), align_of::<Built>(), align_of::<Stretch>()], [4, 4, 4]);
    assert_eq!([size_of::<Read>(), size_of::<Written>(), size_of::<Batch>()], [48, 24, 32]);
    assert_eq!([align_of::<Read>(), align_of::<Written>(), align_of::<Batch>()], [8, 8, 8]);
}

#[test]
fn fields_in_order() {
    let answer = [
        offset_of!(Answer, number),
        offset_of!(Answer, place),
        offset_of!(Answer, length),
        offset_of!(Answer, passes),
    ];
    assert_eq!(answer, [0, 4, 8, 12]);
    assert_eq!(
        [offset_of!(Built, number), offset_of!(Built, nodes), offset_of!(Built, edges)],
        [0, 4, 8]
    );
    assert_eq!([offset_of!(Stretch, start), offset_of!(Stretch, length)], [0, 4]);
    let read = [
        offset_of!(Read, number),
        offset_of!(Read, place),
        offset_of!(Read, provable),
        offset_of!(Read, logic),
        offset_of!(Read, rules),
        offset_of!(Read, statements),
        offset_of!(Read, words),
    ];
    assert_eq!(read, [0, 8, 16, 20, 24, 32, 40]);
    assert_eq!(
        [offset_of!(Written, number), offset_of!(Written, place), offset_of!(Written, length)],
        [0, 8, 16]
    );
    let batch = [
        offset_of!(Batch, number),
        offset_of!(Batch, place),
        offset_of!(Batch, statements),
        offset_of!(Batch, words),
    ];
    assert_eq!(batch, [0, 8, 16, 24]);
}
