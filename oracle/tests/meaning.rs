//! The area that docs/MEANING.md works out by hand.

/// The page.
const PAGE: &str = include_str!("../../docs/MEANING.md");

/// The blocks of the page: its indented lines, those that follow each other together.
fn blocks() -> Vec<Vec<&'static str>> {
    let lines: Vec<_> = PAGE.lines().map(|line| line.strip_prefix("    ")).collect();
    let blocks = lines.split(Option::is_none);
    let blocks = blocks.map(|block| block.iter().flatten().copied().collect());
    blocks.filter(|block: &Vec<_>| !block.is_empty()).collect()
}

/// The octets of lines in hex.
fn octets(lines: &[&str]) -> Vec<u8> {
    let words = lines.iter().flat_map(|line| line.split_whitespace());
    words
        .map(|word| u8::from_str_radix(word, 16).expect(word))
        .collect()
}

#[test]
fn the_page_shows_what_the_rust_shows() {
    let blocks = blocks();
    let [area, listing] = &blocks[..] else {
        panic!("an area and a listing, not {} blocks", blocks.len());
    };
    let push = oracle::push(0, 100, &octets(area));
    assert_eq!(oracle::dump(&push), listing.join("\n") + "\n");
}
