//! The screening of words, with one net and with two. A further call is a further entry in
//! [`on_one_net`] or [`on_two_nets`].

use crate::calls::{Buffers, Call};
use crate::nets::{
    behind, largest_net, longest_sales, longest_stop, longest_word, new_sample_word, sample_stop,
    sample_word, small_net, Screening, AT_ONCE, LAST, NEAR_THE_END,
};
use std::hint::black_box;

/// Screening of words that are permitted, and of words that are stopped.
pub fn on_one_net() -> Vec<Call<Screening<1>, u8>> {
    vec![
        Call {
            name: "screen",
            size: "2 places, 2 events",
            prepare: || without_output(sample_word()),
            ours: screen_ours,
            reference: screen_reference,
        },
        Call {
            name: "screen",
            size: "64 places, 65,535 events",
            prepare: || without_output(longest_word()),
            ours: screen_ours,
            reference: screen_reference,
        },
        Call {
            name: "screen",
            size: "2 places, 3 events, stopped",
            prepare: || without_output(sample_stop()),
            ours: screen_ours,
            reference: screen_reference,
        },
        Call {
            name: "screen",
            size: "64 places, 65,535 events, stopped",
            prepare: || without_output(longest_stop(LAST)),
            ours: screen_ours,
            reference: screen_reference,
        },
        Call {
            name: "screen",
            size: "64 places, 65,535 events, stopped at 65,484",
            prepare: || without_output(longest_stop(NEAR_THE_END)),
            ours: screen_ours,
            reference: screen_reference,
        },
        Call {
            name: "screen",
            size: "64 places, 65,535 events, stopped at 1",
            prepare: || without_output(longest_stop(AT_ONCE)),
            ours: screen_ours,
            reference: screen_reference,
        },
        Call {
            name: "screen",
            size: "2 places, 2 events, new edition",
            prepare: || without_output(new_sample_word()),
            ours: screen_ours,
            reference: screen_reference,
        },
        Call {
            name: "screen",
            size: "64 places, 65,534 events, new edition",
            prepare: || without_output(longest_sales()),
            ours: screen_ours,
            reference: screen_reference,
        },
    ]
}

/// The same with two nets. The first permits each word.
pub fn on_two_nets() -> Vec<Call<Screening<2>, u8>> {
    vec![
        Call {
            name: "screen joined",
            size: "2 + 2 places, 2 events",
            prepare: || without_output(behind(small_net(), sample_word())),
            ours: screen_joined_ours,
            reference: screen_joined_reference,
        },
        Call {
            name: "screen joined",
            size: "64 + 64 places, 65,535 events",
            prepare: || without_output(behind(largest_net(), longest_word())),
            ours: screen_joined_ours,
            reference: screen_joined_reference,
        },
        Call {
            name: "screen joined",
            size: "2 + 2 places, 3 events, stopped",
            prepare: || without_output(behind(small_net(), sample_stop())),
            ours: screen_joined_ours,
            reference: screen_joined_reference,
        },
        Call {
            name: "screen joined",
            size: "64 + 64 places, 65,535 events, stopped",
            prepare: || without_output(behind(largest_net(), longest_stop(LAST))),
            ours: screen_joined_ours,
            reference: screen_joined_reference,
        },
        Call {
            name: "screen joined",
            size: "64 + 64 places, 65,535 events, stopped at 65,484",
            prepare: || without_output(behind(largest_net(), longest_stop(NEAR_THE_END))),
            ours: screen_joined_ours,
            reference: screen_joined_reference,
        },
        Call {
            name: "screen joined",
            size: "64 + 64 places, 65,535 events, stopped at 1",
            prepare: || without_output(behind(largest_net(), longest_stop(AT_ONCE))),
            ours: screen_joined_ours,
            reference: screen_joined_reference,
        },
    ]
}

/// Screens the word.
pub fn screen_ours(buffers: &mut Buffers<Screening<1>, u8>) -> Option<usize> {
    let Screening { bundles, word } = &buffers.input;
    let screened = hovmekhar::screen(black_box(&bundles[0]), black_box(word));
    Some(told(screened.ok()?, word))
}

/// Screens the word by the reference.
pub fn screen_reference(buffers: &mut Buffers<Screening<1>, u8>) -> Option<usize> {
    let Screening { bundles, word } = &buffers.input;
    let screened = reference::screen(black_box(&bundles[0]), black_box(word));
    Some(told_by_reference(screened.ok()?, word))
}

fn screen_joined_ours(buffers: &mut Buffers<Screening<2>, u8>) -> Option<usize> {
    let Screening { bundles, word } = &buffers.input;
    let [first, second] = bundles.each_ref().map(black_box);
    let screened = hovmekhar::screen_joined(first, second, black_box(word));
    Some(told(screened.ok()?, word))
}

fn screen_joined_reference(buffers: &mut Buffers<Screening<2>, u8>) -> Option<usize> {
    let Screening { bundles, word } = &buffers.input;
    let [first, second] = bundles.each_ref().map(black_box);
    let screened = reference::screen_joined(first, second, black_box(word));
    Some(told_by_reference(screened.ok()?, word))
}

/// How many events there are, or the sum of what is told of a stop.
fn told(screened: hovmekhar::Screened, word: &[u8]) -> usize {
    match screened {
        hovmekhar::Screened::Permitted => word.len(),
        hovmekhar::Screened::Stopped {
            position,
            place,
            shortfall,
        } => position + place + shortfall,
    }
}

/// The same, of the reference's answer.
fn told_by_reference(screened: reference::Screened, word: &[u8]) -> usize {
    match screened {
        reference::Screened::Permitted => word.len(),
        reference::Screened::Stopped {
            position,
            place,
            shortfall,
        } => position + place + shortfall,
    }
}

/// An input of a call that only reads.
pub fn without_output<I>(input: I) -> Buffers<I, u8> {
    Buffers {
        input,
        output: Vec::new(),
    }
}
