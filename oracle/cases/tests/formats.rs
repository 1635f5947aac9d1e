//! The plain readers of the two formats: each rule broken alone is noticed, and
//! what is written is read back.

use cases::format::book::Book;
use cases::format::sheet::{LONGEST, Sheet};
use cases::format::{book_refusal, loading_refusal};
use cases::random::Random;
use cases::sheets::{books, damage, good};

#[test]
fn each_rule_alone() {
    for case in damage::sheet::all().into_iter().chain(damage::keys::all()) {
        assert_eq!(loading_refusal(&case.bytes), case.refusal, "{}", case.what);
    }
    for case in damage::book::all() {
        assert_eq!(book_refusal(&case.bytes), case.refusal, "{}", case.what);
    }
}

#[test]
fn good_ones_are_read_back() {
    let mut random = Random::new(1);
    for _ in 0..2000 {
        let size = books::size(&mut random);
        let book = books::book(&mut random, size);
        assert_eq!(Book::read(&book.write()), Some(book.clone()));
        let size = good::size(&mut random);
        let sheet = good::sheet(&mut random, size, &book);
        let bytes = sheet.write();
        assert_eq!(Sheet::read(&bytes), Some(sheet.clone()));
        assert_eq!((bytes.len(), loading_refusal(&bytes)), (sheet.length(), 0));
    }
    let full = good::sheet(&mut random, good::FULL, &Book::default());
    assert_eq!(full.write().len(), LONGEST);
}
