//! What the command says of itself.

use wakkemosut::Registry;

use crate::registries;

/// The line that points to the page of help.
pub const POINTER: &str = "'wakkemosut --help' says what can be written";

/// The ways to call the command.
const USAGE: &str = "\
usage: wakkemosut area [--records | --json] REGISTRY BASE OCTETS..
       wakkemosut area [--records | --json] REGISTRY BASE --file FILE
       wakkemosut area [--records | --json] REGISTRY BASE --binary FILE
       wakkemosut --help | --version
";

/// The page, before the registries.
const BEFORE: &str = "\
wakkemosut area shows what an IS-IS sub-TLV area says: the run of sub-TLVs
inside a TLV, as they stand in a packet. It begins behind what stands before
them: in an entry of TLV 22 behind 11 octets (system id, metric, their length),
of TLV 135 behind metric, control octet, prefix and their length, of TLV 242
behind 5 (router id, flags).

";

/// The page, from the registries on.
const AFTER: &str = "
BASE is the place of the area's first octet, in decimal digits, such as the
place in its packet; 0 if it does not matter. The places shown count from it.

OCTETS are in hex, in one word or more: whole octets, two digits each, with or
without spaces, line breaks, ':', '-' or '.' between them, with or without 0x.
These are the same: 12 03 00 00 0A, 120300000a, 12:03:00:00:0A, 0x1203 0x0000 0A.
'-' alone reads such a text from standard input, '' is an empty area. Of a hex
dump, leave the column of offsets out, and that of characters.

options, anywhere behind area:
  --file FILE    reads OCTETS from a file, as a text in hex
  --binary FILE  reads the octets themselves from a file; '-' is standard input
  --records      shows every record in a line, as the library gives it: its
                 octets from the first to the one past the last, its number
  --json         shows the records as a JSON object, for programs
  --             ends the options
  -h, --help     shows this page
  -V, --version  shows the version

exit status: 0 done; 1 refused by the library (over 65,535 octets, base and
length together over 4,294,967,295, a registry that is none), or the answer
cannot be written; 2 a word is wrong, or a file cannot be read. Standard error tells why.

example: wakkemosut area neighbor 100 12 03 00 00 0A
";

/// What the example prints.
const EXAMPLE: &str = "\
neighbor, 5 octets from 100 on: 1 entry

100  18  TE Default metric  10
";

/// The ways to call the command, and the line that points to the page.
pub fn usage() -> String {
    format!("{USAGE}{POINTER}\n")
}

/// The version.
pub fn version() -> String {
    format!("wakkemosut {}\n", env!("CARGO_PKG_VERSION"))
}

/// The page of help.
pub fn page() -> String {
    let example: String = EXAMPLE.lines().map(indented).collect();
    format!(
        "{BEFORE}{USAGE}\n{}{AFTER}prints\n{example}",
        registries_part()
    )
}

/// What there is to say of the registries.
fn registries_part() -> String {
    let mut part = String::from(
        "REGISTRY gives the types their meaning. It is a number, or a name in any case:\n",
    );
    for registry in Registry::ALL {
        let (number, about) = (registry.number(), registries::about(*registry));
        let word = registries::word(*registry);
        part.push_str(&format!("  {number}  {word:<18} {about}\n"));
    }
    part
}

/// A line, further in.
fn indented(line: &str) -> String {
    match line {
        "" => "\n".into(),
        line => format!("  {line}\n"),
    }
}
