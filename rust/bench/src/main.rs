//! Times the proved library and the reference on the same calls, in one run, and then a
//! batch of files that `hov` judges.
//!
//! Run with `cargo run --release -p bench`. An argument is the path of `hov`; without one it
//! is looked for beside this program. The times are for reading; nothing is judged by them.

#![forbid(unsafe_code)]

mod batch;
mod calls;
mod carrying;
mod nets;
mod reaching;
mod rewriting;
mod timing;
mod words;

use calls::Call;
use std::env;
use timing::ROUNDS;

fn main() {
    println!("Time of one call in nanoseconds: the median of {ROUNDS} rounds, ours and the");
    println!("reference in turn. Both get the same buffers, allocated once and not cleared");
    println!("between calls. A log is a fresh table and then all of its words, one by one. The");
    println!("bundles that are judged, pruned or converted are accepted, and the words that are");
    println!("screened and the events that are played or kept permitted, or stopped where the");
    println!("size says so: at the last event or at the position that is named, by the last");
    println!("place. The ratio is ours / reference; below 1 ours is faster.");
    println!();
    println!(
        "{:<13} {:<48} {:>10} {:>10} {:>6}",
        "call", "size", "ours", "reference", "ratio"
    );
    print_all(&calls::on_files());
    print_all(&calls::on_logs());
    print_all(&calls::on_bundles());
    print_all(&rewriting::on_bundles());
    print_all(&words::on_one_net());
    print_all(&words::on_two_nets());
    print_all(&reaching::on_nets());
    print_all(&carrying::on_tokens());
    print_all(&carrying::on_kept_events());
    print_all(&carrying::on_words());
    batch::print(env::args_os().nth(1).map(Into::into));
}

/// Times calls and prints their lines.
fn print_all<I, T: Default + Clone + PartialEq>(calls: &[Call<I, T>]) {
    for call in calls {
        let (ours, reference) = timing::compare(call);
        println!(
            "{:<13} {:<48} {ours:>10.1} {reference:>10.1} {:>6.2}",
            call.name,
            call.size,
            ours / reference
        );
    }
}
