//! The arguments of the drivers.

/// Whether the first argument is `--compare-only`, and the arguments behind it. It asks for the comparison alone,
/// without what else would show that the rules in Rust are wrong.
pub fn compare_only(arguments: &[String]) -> (bool, &[String]) {
    match arguments.split_first() {
        Some((first, rest)) if first == "--compare-only" => (true, rest),
        _ => (false, arguments),
    }
}
