//! The table of the times.

use super::ALL;

pub fn print_head() {
    println!(
        "\n{:47} {:>9} {:>9} {:>5} {:>9} {:>5} {:>9} {:>6}",
        "ns for an operation", "library", "twin", "/lib", "contains", "/lib", "hash set", "/lib"
    );
}

/// Prints the times of a row, and those of the twin by that of the library.
pub fn print_row(name: &str, times: [f64; ALL.len()]) {
    let [library, any, contains, hashed] = times;
    let [by_any, by_contains, by_hash] = [any, contains, hashed].map(|time| time / library);
    println!(
        "{name:47} {library:9.1} {any:9.1} {by_any:5.2} {contains:9.1} {by_contains:5.2} \
         {hashed:9.1} {by_hash:6.3}"
    );
}
