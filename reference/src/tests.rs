mod chars;
mod generation;
mod lines;
mod lists;
mod memory;
mod prefixes;
mod rules;
