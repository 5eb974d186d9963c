//! In place of oxml's builder.rs, which was not handed over. tree.rs re-exports its one name.

pub struct Builder;
