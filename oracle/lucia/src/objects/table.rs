//! Carried over from the Rust's `table.rs`: the types, `new`, `get`, `get_index`, `set`, `len`, the metatable and `iter`.
//! Left out: all metamethods. A list is a table whose items are its array; globals are tables whose keys are names.

use std::{cmp::Ordering, rc::Rc};

use ordermap::OrderMap;

use crate::objects::Value;

pub type RcTable = Rc<Table>;

#[derive(Debug, Clone, PartialEq, Eq, Hash, Default)]
pub struct Table {
    pub entries: TableEntries,
    pub metatable: Option<RcTable>,
}

impl Table {
    pub fn new() -> Self {
        Table::default()
    }

    pub fn get<K: Into<Value>>(&self, key: K) -> Value {
        let key = key.into();
        if let Value::Int(key) = key
            && let Ok(key) = usize::try_from(key)
            && key < self.entries.array.len()
        {
            return self.entries.array[key].clone();
        }
        self.entries.map.get(&key).cloned().unwrap_or(Value::Null)
    }

    pub fn get_index(&self, index: usize) -> Option<(Value, Value)> {
        if index < self.entries.array.len() {
            self.entries
                .array
                .get(index)
                .map(|v| (index.into(), v.clone()))
        } else {
            self.entries
                .map
                .get_index(index - self.entries.array.len())
                .map(|(k, v)| (k.clone(), v.clone()))
        }
    }

    pub fn set<K: Into<Value>, V: Into<Value>>(&mut self, key: K, value: V) {
        let key = key.into();
        let value = value.into();
        if let Value::Int(k) = key
            && let Ok(k) = usize::try_from(k)
        {
            match k.cmp(&self.entries.array.len()) {
                Ordering::Less => return self.entries.array[k] = value,
                Ordering::Equal => return self.entries.array.push(value),
                Ordering::Greater => (),
            }
        }
        if value.is_null() {
            self.entries.map.remove(&key);
        } else {
            self.entries.map.insert(key, value);
        }
    }

    /// The items of a list.
    pub fn items(&self) -> &[Value] {
        &self.entries.array
    }

    pub fn metatable(&self) -> Option<RcTable> {
        self.metatable.clone()
    }

    pub fn set_metatable(&mut self, metatable: Option<RcTable>) {
        self.metatable = metatable;
    }

    pub fn iter(&self) -> impl Iterator<Item = (Value, Value)> {
        (0..).map_while(|index| self.get_index(index))
    }
}

#[derive(Debug, Clone, PartialEq, Eq, Hash, Default)]
pub struct TableEntries {
    array: Vec<Value>,
    map: OrderMap<Value, Value>,
}

impl FromIterator<Value> for TableEntries {
    fn from_iter<T: IntoIterator<Item = Value>>(iter: T) -> Self {
        let array = Vec::from_iter(iter);
        TableEntries {
            array,
            map: OrderMap::new(),
        }
    }
}

impl FromIterator<(Value, Value)> for TableEntries {
    fn from_iter<T: IntoIterator<Item = (Value, Value)>>(iter: T) -> Self {
        let map = OrderMap::from_iter(iter);
        TableEntries {
            array: Vec::new(),
            map,
        }
    }
}

impl From<Table> for Value {
    fn from(value: Table) -> Self {
        Value::Table(Rc::new(value))
    }
}

impl<T: Into<TableEntries>> From<T> for Value {
    fn from(value: T) -> Self {
        Value::Table(Rc::new(Table {
            entries: value.into(),
            metatable: None,
        }))
    }
}

impl<T: Into<Value>> From<Vec<T>> for TableEntries {
    fn from(value: Vec<T>) -> Self {
        value.into_iter().map(Into::into).collect()
    }
}

impl<T: Into<Value> + Clone> From<&[T]> for TableEntries {
    fn from(value: &[T]) -> Self {
        value.iter().cloned().map(Into::into).collect()
    }
}
