//! FOR and delta blocks, and columns of them in memory.

use fastlanes::column::{
    FrameHead, column_get, column_get_at, column_len, column_starts, column_write, delta_read, delta_width,
    delta_write, frame_get, frame_head, frame_read, frame_write,
};
use std::array::from_fn;

#[test]
fn frame_head_returns_the_minimum_and_the_minimum_width() {
    let head = frame_head(&[300u16; 1024]);
    assert_eq!((head.width, head.reference), (0, 300));
    let head = frame_head(&from_fn(|i| 1000 + i as u32));
    assert_eq!((head.width, head.reference), (10, 1000));
    let head = frame_head(&from_fn(|i| if i == 0 { 0 } else { u64::MAX }));
    assert_eq!((head.width, head.reference), (64, 0));
}

#[test]
fn for_blocks_round_trip() {
    let block: [u8; 1024] = from_fn(|i| 254u8.wrapping_add(i as u8 % 4));
    let head = FrameHead {
        width: 2,
        reference: 254,
    };
    let mut words = [9; 256];
    frame_write(&head, &block, &mut words);
    let mut output = [9; 1024];
    frame_read(&head, &words, &mut output);
    assert_eq!(output, block);
    for (index, value) in block.iter().enumerate() {
        assert_eq!(frame_get(&head, &words, index), *value);
    }
}

#[test]
fn delta_blocks_round_trip() {
    let block: [u16; 1024] = from_fn(|i| i as u16 / 8);
    assert_eq!(delta_width(&block, &[0; 64]), 7);
    let mut words = [9; 448];
    delta_write(7, &block, &[0; 64], &mut words);
    let mut output = [9; 1024];
    delta_read(7, &words, &[0; 64], &mut output);
    assert_eq!(output, block);
}

#[test]
fn column_get_reads_values_by_index() {
    let thousands = from_fn(|i| 1000 + i as u32);
    let blocks = [thousands, [300; 1024], thousands];
    let heads = blocks.each_ref().map(frame_head);
    assert_eq!(column_len(&heads), 640);
    let mut words = [9; 640];
    column_write(&heads, &blocks, &mut words);
    let mut starts = [9; 3];
    column_starts(&heads, &mut starts);
    assert_eq!(starts, [0, 320, 320]);
    for (index, value) in blocks.as_flattened().iter().enumerate() {
        assert_eq!(column_get(&heads, &words, index), *value);
        assert_eq!(column_get_at(&heads, &starts, &words, index), *value);
    }
    column_write::<u64>(&[], &[], &mut []);
}
