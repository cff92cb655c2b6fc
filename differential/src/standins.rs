//! Stand-ins. Each says what of the missing file the store logic relies on.

/// identifier.rs: a checked string. The store only carries it about.
pub mod identifier {
    use crate::{
        context::Context,
        printable::{Printable, State},
    };
    #[derive(Clone, PartialEq, Eq, Hash, Debug)]
    pub struct Identifier(String);
    impl TryFrom<String> for Identifier {
        type Error = crate::result::Error;
        fn try_from(s: String) -> Result<Self, Self::Error> {
            Ok(Identifier(s))
        }
    }
    impl From<Identifier> for String {
        fn from(i: Identifier) -> String {
            i.0
        }
    }
    impl core::fmt::Display for Identifier {
        fn fmt(&self, f: &mut core::fmt::Formatter<'_>) -> core::fmt::Result {
            write!(f, "{}", self.0)
        }
    }
    impl Printable for Identifier {
        fn fmt(&self, _: &Context, _: &State, f: &mut core::fmt::Formatter<'_>) -> core::fmt::Result {
            write!(f, "{}", self.0)
        }
    }
}

/// location.rs: here it carries the birth number of the operation or block (put there with the
/// published `set_loc`), so that an error of the published `verify` names its offender.
pub mod location {
    #[derive(Clone, Copy, Debug, PartialEq, Eq)]
    pub enum Location {
        Unknown,
        Op(u32),
        Block(u32),
    }
}

/// result.rs and its macros: an error carries its location, its cause and the line that raised it.
pub mod result {
    use crate::{
        context::Context,
        location::Location,
        printable::{Printable, State},
    };
    #[derive(Debug)]
    pub struct Error {
        pub loc: Location,
        pub err: Box<dyn core::error::Error + Send + Sync>,
        pub file: &'static str,
        pub line: u32,
    }
    pub type Result<T> = core::result::Result<T, Error>;
    impl core::fmt::Display for Error {
        fn fmt(&self, f: &mut core::fmt::Formatter<'_>) -> core::fmt::Result {
            write!(f, "{}", self.err)
        }
    }
    impl core::error::Error for Error {}
    impl Printable for Error {
        fn fmt(&self, _: &Context, _: &State, f: &mut core::fmt::Formatter<'_>) -> core::fmt::Result {
            write!(f, "{}", self.err)
        }
    }
}
#[macro_export]
macro_rules! verify_error {
    ($loc:expr, $err:expr) => {
        $crate::result::Error { loc: $loc.clone(), err: Box::new($err), file: file!(), line: line!() }
    };
}
#[macro_export]
macro_rules! verify_err {
    ($loc:expr, $err:expr) => {
        Err($crate::verify_error!($loc, $err))
    };
}
#[macro_export]
macro_rules! verify_err_noloc {
    ($fmt:literal, $($arg:tt)*) => {
        Err($crate::result::Error {
            loc: $crate::location::Location::Unknown,
            err: format!($fmt, $($arg)*).into(),
            file: file!(),
            line: line!(),
        })
    };
}
#[macro_export]
macro_rules! arg_error {
    ($loc:expr, $err:expr) => {
        $crate::verify_error!($loc, $err)
    };
}
#[macro_export]
macro_rules! arg_error_noloc {
    ($err:expr) => {
        $crate::verify_error!($crate::location::Location::Unknown, $err)
    };
}

/// printable.rs: names only, and `disp`.
pub mod printable {
    use crate::context::Context;
    #[derive(Default)]
    pub struct State;
    pub enum RegionPrintDepthLimit {
        Max(usize),
    }
    impl State {
        pub fn set_region_print_depth_limit(&self, _: RegionPrintDepthLimit) {}
    }
    pub struct Disp<'a, T>(&'a T, &'a Context);
    impl<T: Printable> core::fmt::Display for Disp<'_, T> {
        fn fmt(&self, f: &mut core::fmt::Formatter<'_>) -> core::fmt::Result {
            self.0.fmt(self.1, &State, f)
        }
    }
    pub trait Printable {
        fn fmt(&self, ctx: &Context, state: &State, f: &mut core::fmt::Formatter<'_>) -> core::fmt::Result;
        fn disp<'a>(&'a self, ctx: &'a Context) -> Disp<'a, Self>
        where
            Self: Sized,
        {
            Disp(self, ctx)
        }
    }
    // names in `use` lines of what is cut
    pub enum ListSeparator {}
    pub fn indented_nl() {}
    pub fn fmt_indented_newline() {}
    pub fn fmt_iter() {}
}

/// common_traits.rs
pub mod common_traits {
    use crate::{context::Context, identifier::Identifier, result::Result};
    pub trait Verify {
        fn verify(&self, ctx: &Context) -> Result<()>;
    }
    pub trait Named {
        fn given_name(&self, ctx: &Context) -> Option<Identifier>;
        fn id(&self, ctx: &Context) -> Identifier;
        fn unique_name(&self, ctx: &Context) -> Identifier {
            self.id(ctx)
        }
    }
    pub trait RcShare {}
}

/// attribute.rs: an empty dictionary.
pub mod attribute {
    use crate::{context::Context, identifier::Identifier, result::Result, utils::table::SmallMap};
    #[derive(Default)]
    pub struct AttributeDict(pub SmallMap<Identifier, Box<()>, 1>);
    pub fn verify_attr(_: &(), _: &Context) -> Result<()> {
        Ok(())
    }
}

/// The inner functions of given_names.rs on a dictionary that is always empty and names that are
/// always None: their published bodies then do nothing.
pub mod names {
    use crate::{attribute::AttributeDict, identifier::Identifier};
    pub fn set_name_in_attr_map(_: &mut AttributeDict, _: usize, name: Option<Identifier>) {
        assert!(name.is_none());
    }
    pub fn insert_name_in_attr_map(_: &mut AttributeDict, _: usize, name: Option<Identifier>) {
        assert!(name.is_none());
    }
    pub fn remove_name_from_attr_map(_: &mut AttributeDict, _: usize) {}
    pub fn get_name_from_attr_map(_: &AttributeDict, _: usize) -> Option<Identifier> {
        None
    }
}

/// type.rs: an opaque 32-bit number whose own check passes.
pub mod r#type {
    use crate::{common_traits::Verify, context::Context, result::Result};
    #[derive(Clone, Copy, PartialEq, Eq, Hash, Debug)]
    pub struct TypeHandle(pub u32);
    impl Verify for TypeHandle {
        fn verify(&self, _: &Context) -> Result<()> {
            Ok(())
        }
    }
    pub trait Typed {
        fn get_type(&self, ctx: &Context) -> TypeHandle;
    }
    pub struct TypeObj;
}

/// op.rs and op_interfaces.rs: an operation is one of four concrete ops, one for each flags number.
pub mod op {
    use super::op_interfaces::*;
    use crate::{
        common_traits::Verify,
        context::{Context, Ptr},
        operation::Operation,
        printable::{Printable, State},
        result::Result,
    };
    pub type OpObj = Box<dyn Op>;
    #[derive(Clone, Copy)]
    pub struct ConcreteOpInfo(pub fn(Ptr<Operation>) -> OpObj, pub u32);
    #[derive(Clone, PartialEq, Eq, Debug)]
    pub struct OpId(pub u32);
    pub trait Op: Verify + Printable {
        fn flags(&self) -> u32;
        fn get_operation(&self) -> Ptr<Operation>;
        fn get_opid(&self) -> OpId;
        fn verify_interfaces(&self, _: &Context) -> Result<()> {
            Ok(())
        }
        fn from_operation(op: Ptr<Operation>) -> Self
        where
            Self: Sized;
        fn get_concrete_op_info() -> ConcreteOpInfo
        where
            Self: Sized;
    }
    pub struct Concrete<const F: u32>(Ptr<Operation>);
    impl<const F: u32> Verify for Concrete<F> {
        fn verify(&self, _: &Context) -> Result<()> {
            Ok(())
        }
    }
    impl<const F: u32> Printable for Concrete<F> {
        fn fmt(&self, _: &Context, _: &State, f: &mut core::fmt::Formatter<'_>) -> core::fmt::Result {
            write!(f, "op{F}({:?})", self.0)
        }
    }
    impl<const F: u32> Op for Concrete<F> {
        fn flags(&self) -> u32 {
            F
        }
        fn get_operation(&self) -> Ptr<Operation> {
            self.0
        }
        fn get_opid(&self) -> OpId {
            OpId(F)
        }
        fn from_operation(op: Ptr<Operation>) -> Self {
            Concrete(op)
        }
        fn get_concrete_op_info() -> ConcreteOpInfo {
            ConcreteOpInfo(|op| Box::new(Concrete::<F>(op)), F)
        }
    }
    pub fn op_impls<I: Interface + ?Sized>(op: &dyn Op) -> bool {
        op.flags() & I::BIT != 0
    }
    pub fn op_cast<I: ?Sized>(_: &dyn Op) -> Option<&I> {
        None
    }
}
pub mod op_interfaces {
    pub trait Interface {
        const BIT: u32;
    }
    pub trait IsTerminatorInterface {}
    pub trait NoTerminatorInterface {}
    pub trait RegionKindInterface {
        fn has_ssa_dominance(&self, idx: usize) -> bool;
    }
    impl Interface for dyn IsTerminatorInterface {
        const BIT: u32 = 1;
    }
    impl Interface for dyn NoTerminatorInterface {
        const BIT: u32 = 2;
    }
}

/// utils/vec_exns.rs: assumed from the published doc comments ("returning its index").
pub mod vec_exns {
    pub trait VecExtns<T> {
        fn push_back(&mut self, t: T) -> usize;
        fn new_init<F: FnMut(usize) -> T>(size: usize, f: F) -> Vec<T>;
    }
    impl<T> VecExtns<T> for Vec<T> {
        fn push_back(&mut self, t: T) -> usize {
            self.push(t);
            self.len() - 1
        }
        fn new_init<F: FnMut(usize) -> T>(size: usize, f: F) -> Vec<T> {
            (0..size).map(f).collect()
        }
    }
}

/// The fields of Context that the store logic does not look at.
pub mod dialect {
    #[derive(Clone, PartialEq, Eq, Hash, Debug)]
    pub struct DialectName;
    pub struct Dialect;
}
pub mod storage_uniquer {
    pub struct UniqueStore<T>(core::marker::PhantomData<T>);
    impl<T> Default for UniqueStore<T> {
        fn default() -> Self {
            UniqueStore(core::marker::PhantomData)
        }
    }
}
pub mod uniqued_any {
    pub struct UniquedAny;
}
pub mod std_deps {
    pub mod sync {
        pub use std::sync::LazyLock;
    }
}
/// HMap and HSet of utils/table.rs (used for Context's dialect tables only).
pub mod htable {
    pub type HMap<K, V> = std::collections::HashMap<K, V>;
    pub type HSet<T> = std::collections::HashSet<T>;
}
