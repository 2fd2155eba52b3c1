//! Stands in for unpitched.rs, of which nothing is named.
