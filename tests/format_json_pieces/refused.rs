//! Allocation failures.
use format_json_pieces::value::{parse_value_of_bytes, read_next_in_pieces, read_value_in_pieces};
use test_json_support::refused::{TEXT, each_refused, read, read_whole};
use winnow::stream::Partial;

#[test]
fn parse_value_refused_memory(rt: HostRuntime) {
    each_refused(&rt, "parse_value_of_bytes", rt.alloc(), |heap| {
        read_whole(parse_value_of_bytes(heap, 3, TEXT.as_bytes()))
    });
}

#[test]
fn read_value_refused_memory(rt: HostRuntime) {
    each_refused(&rt, "read_value_in_pieces", rt.alloc(), |heap| {
        let mut input = Partial::new(TEXT.as_bytes());
        let answer = read_value_in_pieces(heap, 3, &mut input);
        assert!(rt; answer.is_ok() || *input.as_inner() == TEXT.as_bytes());
        read::<Partial<&[u8]>, _, _>(answer, input.as_inner().len())
    });
}

#[test]
fn read_next_refused_memory(rt: HostRuntime) {
    each_refused(&rt, "read_next_in_pieces", rt.alloc(), |heap| {
        let mut input = Partial::new(TEXT.as_bytes());
        let answer = read_next_in_pieces(heap, 3, &mut input);
        assert!(rt; answer.is_ok() || *input.as_inner() == TEXT.as_bytes());
        read::<Partial<&[u8]>, _, _>(answer, input.as_inner().len())
    });
}
