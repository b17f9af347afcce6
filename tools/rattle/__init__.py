"""Sources of Rattle: their tokens, and what they are in Rust."""
