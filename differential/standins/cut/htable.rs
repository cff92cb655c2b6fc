pub mod htable {
    pub use crate::standins::htable::*;
}
