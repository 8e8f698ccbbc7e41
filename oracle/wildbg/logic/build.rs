#[path = "../sources.rs"]
mod sources;

fn main() {
    sources::take_over(
        "logic",
        &["bg_move"],
        &["bg_move.rs", "bg_move/double.rs", "bg_move/mixed.rs"],
    );
}
