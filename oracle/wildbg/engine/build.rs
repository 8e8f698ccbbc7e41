#[path = "../sources.rs"]
mod sources;

fn main() {
    sources::take_over(
        "engine",
        &["dice", "inputs", "position"],
        &[
            "dice.rs",
            "inputs.rs",
            "position.rs",
            "position/double_moves.rs",
            "position/mixed_moves.rs",
        ],
    );
    // This includes position/conversion.rs.
    sources::write("position/conversion.rs", include_bytes!("src/conversion.rs"));
    // inputs.rs declares this module and uses nothing of it; it is outside the port.
    sources::write("inputs/expert.rs", b"");
}
