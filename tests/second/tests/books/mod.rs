use second::PlainBook;

/// Whether the words are a book; where they are, all are laid out as they stood.
pub fn is_book(words: &[u32]) -> bool {
    match PlainBook::read(words) {
        None => false,
        Some(book) => {
            assert_eq!(book.words(), words);
            true
        }
    }
}
