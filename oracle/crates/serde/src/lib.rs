//! Stands in for serde, as far as gerg.rs uses it: a value tree, and how a type is read from it.
pub use serde_derive::Deserialize;

pub enum Value {
    Number(f64),
    Text(String),
    List(Vec<Value>),
    Map(Vec<(String, Value)>),
}

impl Value {
    pub fn field(&self, name: &str) -> Result<&Value, String> {
        let Value::Map(fields) = self else {
            return Err("no map".into());
        };
        let found = fields.iter().find(|(key, _)| key == name);
        found.map(|(_, value)| value).ok_or_else(|| format!("no {name}"))
    }
}

pub trait Deserialize: Sized {
    fn from_value(value: &Value) -> Result<Self, String>;
}

impl Deserialize for f64 {
    fn from_value(value: &Value) -> Result<Self, String> {
        match value {
            Value::Number(number) => Ok(*number),
            _ => Err("no number".into()),
        }
    }
}

impl Deserialize for i32 {
    fn from_value(value: &Value) -> Result<Self, String> {
        Ok(f64::from_value(value)? as i32)
    }
}

impl Deserialize for usize {
    fn from_value(value: &Value) -> Result<Self, String> {
        Ok(f64::from_value(value)? as usize)
    }
}

impl Deserialize for String {
    fn from_value(value: &Value) -> Result<Self, String> {
        match value {
            Value::Text(text) => Ok(text.clone()),
            _ => Err("no text".into()),
        }
    }
}

impl<T: Deserialize> Deserialize for Vec<T> {
    fn from_value(value: &Value) -> Result<Self, String> {
        match value {
            Value::List(values) => values.iter().map(T::from_value).collect(),
            _ => Err("no list".into()),
        }
    }
}
