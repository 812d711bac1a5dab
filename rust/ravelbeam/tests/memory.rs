//! A state that owns its memory, and memory with holes.

use ravelbeam::{Error, FrameId, Init, Lower, State, blocks, entries_needed, rows_needed};

/// The blocks of a range: one after the other, aligned, of at most the top order, and each as large as can
/// be.
fn covers(start: usize, end: usize, top: usize) {
    let mut at = start;
    for (frame, order) in blocks(FrameId(start)..FrameId(end), top) {
        let fits = |order| frame.is_aligned(order) && end - frame.0 >= 1 << order;
        assert_eq!(frame, FrameId(at));
        assert!(order <= top && fits(order), "{start}..{end}: {order} at {frame}");
        assert!(order == top || !fits(order + 1), "{start}..{end}: more than {order} at {frame}");
        at += 1 << order;
    }
    assert_eq!(at, end.max(start), "{start}..{end} at {top}");
}

/// The numbers next to where rows, huge frames and trees of four begin and end.
fn boundaries() -> Vec<usize> {
    let ends = [0, 64, 128, 512, 576, 1024, 1536, 2048, 2560, 4096, 5000];
    ends.iter().flat_map(|&end: &usize| end.saturating_sub(1)..=(end + 1).min(5000)).collect()
}

#[test]
fn blocks_cover_every_range() {
    for start in 0..150 {
        for end in 0..150 {
            (0..8).for_each(|top| covers(start, end, top));
        }
    }
    for start in boundaries() {
        for end in boundaries() {
            [0, 6, 9, 11, 18].into_iter().for_each(|top| covers(start, end, top));
        }
    }
    for end in [usize::MAX - 1, usize::MAX] {
        covers(usize::MAX - 5000, end, 18);
    }
}

#[test]
fn what_is_there_is_given_back() {
    let (mut rows, mut entries) = ([0; rows_needed(5000)], [0; entries_needed(5000, 4)]);
    for start in boundaries() {
        for end in boundaries().into_iter().filter(|end| *end > start) {
            let mut lower = Lower::new(5000, 4, Init::AllocAll, &mut rows, &mut entries).unwrap();
            for (frame, order) in blocks(FrameId(start)..FrameId(end), lower.tree_order()) {
                assert_eq!(lower.put(frame, order), Ok(()), "{start}..{end}: {order} at {frame}");
            }
            assert_eq!((lower.stats().free_frames, lower.audit()), (end - start, None));
            for frame in boundaries().into_iter().filter(|frame| *frame < 5000) {
                assert_eq!(lower.is_free(FrameId(frame), 0), Ok((start..end).contains(&frame)));
            }
        }
    }
}

static FIXED: State<{ rows_needed(1000) }, { entries_needed(1000, 2) }> = State::new();

#[test]
fn a_state_is_started_and_started_again() {
    let mut state = FIXED.clone();
    assert_eq!(state.lower().unwrap_err(), Error::Frames);
    for (frames, tree_huge, error) in [(0, 2, Error::Frames), (1000, 3, Error::Tree), (1025, 2, Error::Lent)]
    {
        assert_eq!(state.start(frames, tree_huge, Init::FreeAll).unwrap_err(), error);
        assert_eq!(state.lower().unwrap_err(), Error::Frames);
    }
    assert_eq!(state.start(1000, 2, Init::FreeAll).unwrap().stats().free_frames, 1000);
    state.lower().unwrap().get(FrameId(192).as_row(), 0, None).unwrap();
    assert_eq!(state.start(2000, 2, Init::FreeAll).unwrap_err(), Error::Lent);
    assert_eq!(state.lower().unwrap().stats().free_frames, 999);
    assert_eq!(format!("{state:?}"), "State { frames: 1000, tree_huge: 2, .. }");
    assert_eq!(state.start(512, 1, Init::AllocAll).unwrap().stats().free_frames, 0);
    assert_eq!((state.lower().unwrap().frames(), state.lower().unwrap().tree_order()), (512, 9));
    assert_eq!(State::<8, 1>::default().lower().unwrap_err(), Error::Frames);
}
