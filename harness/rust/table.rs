//! Stand-in for core-relations/src/table: the committed table. Rows stand one after the other and
//! are found by key; what is staged, in any table of a database, goes to one log that they share.
use std::any::Any;
use std::sync::{Arc, Mutex};

use crate::common::HashMap;
use crate::numeric_id::NumericId;
use crate::offsets::{RowId, Subset, SubsetRef};
use crate::pool::with_pool_set;
use crate::table_spec::{
    ColumnId, Constraint, MutationBuffer, Offset, Row, Table, TableChange, TableSpec, TableVersion,
};
use crate::{ExecutionState, Value};

/// For pool/mod.rs.
pub struct TableEntry;

pub type MergeFn = dyn Fn(&mut ExecutionState, &[Value], &[Value], &mut Vec<Value>) -> bool + Send + Sync;

/// All that is staged, in order: for each record its table, its length and whether it removes.
#[derive(Default)]
pub struct Staged {
    pub records: Vec<(usize, usize, bool)>,
    pub words: Vec<Value>,
}

impl Staged {
    /// The words that the records would take in a log of document 01.
    pub fn room(&self) -> usize {
        2 * self.records.len() + self.words.len()
    }
    /// Every record: table, whether it removes, words.
    pub fn iter(&self) -> impl Iterator<Item = (usize, bool, &[Value])> {
        let mut at = 0;
        self.records.iter().map(move |&(table, length, removal)| {
            at += length;
            (table, removal, &self.words[at - length..at])
        })
    }
}

pub type Log = Arc<Mutex<Staged>>;

#[derive(Clone)]
pub struct SortedWritesTable {
    id: usize,
    n_keys: usize,
    n_columns: usize,
    /// Row after row; a removed row is left out when the table is read back.
    rows: Vec<Value>,
    /// The number of the row that has this key.
    by_key: HashMap<Box<[Value]>, usize>,
    merge: Arc<MergeFn>,
    log: Log,
}

impl SortedWritesTable {
    /// The form in which table_shortcuts.rs asks for a table.
    pub fn new(
        n_keys: usize,
        n_columns: usize,
        _sort_by: ColumnId,
        _rebuild: Vec<ColumnId>,
        merge: Box<MergeFn>,
    ) -> Self {
        Self::with_log(0, n_keys, n_columns, merge, Log::default())
    }

    pub fn with_log(id: usize, n_keys: usize, n_columns: usize, merge: Box<MergeFn>, log: Log) -> Self {
        let (rows, by_key) = (Vec::new(), HashMap::default());
        SortedWritesTable { id, n_keys, n_columns, rows, by_key, merge: merge.into(), log }
    }

    /// A row whose key is new.
    pub fn add(&mut self, row: &[Value]) {
        assert_eq!(row.len(), self.n_columns);
        let number = self.rows.len() / self.n_columns;
        let before = self.by_key.insert(row[..self.n_keys].into(), number);
        assert!(before.is_none(), "table {} has this key already", self.id);
        self.rows.extend_from_slice(row);
    }

    /// The rows that stand, oldest first.
    pub fn standing(&self) -> impl Iterator<Item = &[Value]> {
        let stands = |number: usize, row: &[Value]| self.by_key.get(&row[..self.n_keys]) == Some(&number);
        let rows = self.rows.chunks_exact(self.n_columns).enumerate();
        rows.filter(move |(number, row)| stands(*number, row)).map(|(_, row)| row)
    }

    fn find(&self, key: &[Value]) -> Option<&[Value]> {
        assert_eq!(key.len(), self.n_keys, "table {} was asked with a key of another length", self.id);
        let number = *self.by_key.get(key)?;
        Some(&self.rows[number * self.n_columns..(number + 1) * self.n_columns])
    }
}

struct Buffer {
    id: usize,
    n_keys: usize,
    n_columns: usize,
    log: Log,
}

impl Buffer {
    fn stage(&mut self, removal: bool, words: &[Value]) {
        let mut log = self.log.lock().unwrap();
        log.records.push((self.id, words.len(), removal));
        log.words.extend_from_slice(words);
    }
}

impl MutationBuffer for Buffer {
    fn stage_insert(&mut self, row: &[Value]) {
        assert_eq!(row.len(), self.n_columns, "table {} got a row of another length", self.id);
        self.stage(false, row);
    }
    fn stage_remove(&mut self, key: &[Value]) {
        assert_eq!(key.len(), self.n_keys, "table {} got a key of another length", self.id);
        self.stage(true, key);
    }
    fn fresh_handle(&self) -> Box<dyn MutationBuffer> {
        Box::new(Buffer { log: self.log.clone(), ..*self })
    }
}

impl Table for SortedWritesTable {
    fn dyn_clone(&self) -> Box<dyn Table> {
        Box::new(self.clone())
    }
    fn as_any(&self) -> &dyn Any {
        self
    }
    fn spec(&self) -> TableSpec {
        let n_vals = self.n_columns - self.n_keys;
        TableSpec { n_keys: self.n_keys, n_vals, uncacheable_columns: Default::default() }
    }
    fn clear(&mut self) {
        self.rows.clear();
        self.by_key.clear();
    }
    fn all(&self) -> Subset {
        unimplemented!()
    }
    fn len(&self) -> usize {
        self.by_key.len()
    }
    fn version(&self) -> TableVersion {
        unimplemented!()
    }
    fn updates_since(&self, _: Offset) -> Subset {
        unimplemented!()
    }
    fn scan_generic_bounded(
        &self,
        _: SubsetRef,
        _: Offset,
        _: usize,
        _: &[Constraint],
        _: impl FnMut(RowId, &[Value]),
    ) -> Option<Offset> {
        unimplemented!()
    }
    fn get_row(&self, key: &[Value]) -> Option<Row> {
        let row = self.find(key)?;
        let mut vals = with_pool_set(|pools| pools.get::<Vec<Value>>());
        vals.extend_from_slice(row);
        Some(Row { id: RowId::from_usize(0), vals })
    }
    fn get_row_column(&self, key: &[Value], col: ColumnId) -> Option<Value> {
        self.find(key).map(|row| row[col.index()])
    }
    /// The commit of document 01 (added by design, no port): all removals first, then the inserts
    /// in log order; where the key is there already, the merge function decides.
    fn merge(&mut self, state: &mut ExecutionState) -> TableChange {
        let log = self.log.clone();
        let log = log.lock().unwrap();
        let id = self.id;
        let mine = |removing: bool| log.iter().filter(move |(table, removal, _)| *table == id && *removal == removing);
        for (_, _, key) in mine(true) {
            self.by_key.remove(key);
        }
        let (mut added, mut merged) = (false, Vec::new());
        for (_, _, row) in mine(false) {
            let Some(&number) = self.by_key.get(&row[..self.n_keys]) else {
                self.add(row);
                added = true;
                continue;
            };
            let old = &mut self.rows[number * self.n_columns..(number + 1) * self.n_columns];
            merged.clear();
            if (self.merge)(state, old, row, &mut merged) {
                old.copy_from_slice(&merged);
                added = true;
            }
        }
        TableChange { added }
    }
    fn new_buffer(&self) -> Box<dyn MutationBuffer> {
        let Self { id, n_keys, n_columns, .. } = *self;
        Box::new(Buffer { id, n_keys, n_columns, log: self.log.clone() })
    }
}
