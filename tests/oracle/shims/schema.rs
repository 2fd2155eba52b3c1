//! Stands in for schema.rs, of which nothing is named.
