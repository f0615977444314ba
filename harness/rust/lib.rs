//! The published files of core-relations, unchanged, and around them what they need of other
//! modules and crates; `drive` runs books on them.
#![allow(dead_code, unused_imports, unused_macros)]

// The published files, linked into place when this is built ...
#[macro_use]
pub(crate) mod action;
pub(crate) mod base_values;
pub(crate) mod common;
pub(crate) mod containers;
pub(crate) mod free_join;
pub(crate) mod pool;
pub(crate) mod row_buffer;
pub(crate) mod table_shortcuts;
pub(crate) mod table_spec;
// ... the stand-ins for modules of that crate that are not among them ...
pub(crate) mod dependency_graph;
pub(crate) mod hash_index;
pub(crate) mod offsets;
pub(crate) mod parallel;
pub(crate) mod parallel_heuristics;
pub(crate) mod query;
pub(crate) mod table;
// ... the names that they expect in the root of the crate ...
pub(crate) use action::{ExecutionState, MergeVal, QueryEntry, WriteVal};
pub(crate) use base_values::BaseValues;
pub(crate) use common::Value;
pub(crate) use containers::{ContainerRebuildSummary, ContainerValues};
pub(crate) use egglog_numeric_id as numeric_id;
pub(crate) use free_join::{AtomId, CounterId, ExternalFunctionId, TableId, TableIdentity, Variable};
pub(crate) use hash_index::TupleIndex;
pub(crate) use offsets::{RowId, Subset, SubsetRef};
pub(crate) use pool::PoolSet;
pub(crate) use row_buffer::TaggedRowBuffer;
pub(crate) use table_spec::{ColumnId, Offset, TableVersion, WrappedTable};
// ... and what the harness calls.
pub mod drive;
