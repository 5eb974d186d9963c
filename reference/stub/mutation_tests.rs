//! In place of oxml's own tests, which were not handed over. tree.rs names them in a test build.
