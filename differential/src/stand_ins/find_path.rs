
/// Document 01, leaf 6: one less than the caller's length left or than the length of the choice so far, whichever is the
/// smaller.
fn length_left(max_len: usize, best_choice: &Option<Choice>) -> usize {
    match best_choice {
        Some(choice) => max_len.min(choice.path.len()) - 1,
        None => max_len - 1,
    }
}
