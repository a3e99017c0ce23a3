//! Stands in for the original `src/sql/db/table.rs`: of its 1,600 lines the pager modules use this enum, which is the same.

#[derive(Debug, Clone, PartialEq)]
pub enum Value {
    Integer(i64),
    Text(String),
    Real(f64),
    Bool(bool),
    Vector(Vec<f32>),
    Null,
}
