//! Members of JSON objects: each is taken out of its object, so that what is left over can be refused.

use serde_json::{Map, Value};

pub type Object = Map<String, Value>;

/// Says that a value is not of the kind that its place asks for.
#[derive(Debug)]
pub struct Unreadable;

pub type Read<T> = Result<T, Unreadable>;

/// What one member may hold.
pub trait Member: Sized {
    fn read(value: Value) -> Read<Self>;
}

/// The member, which has to be there.
pub fn required<T: Member>(object: &mut Object, key: &str) -> Read<T> {
    object.remove(key).ok_or(Unreadable).and_then(T::read)
}

/// The member, or nothing where it is absent; null is a value like another.
pub fn given<T: Member>(object: &mut Object, key: &str) -> Read<Option<T>> {
    object.remove(key).map(T::read).transpose()
}

/// The member, or its type's default where it is absent.
pub fn defaulted<T: Member + Default>(object: &mut Object, key: &str) -> Read<T> {
    Ok(given(object, key)?.unwrap_or_default())
}

/// The member, or nothing where it is absent or null.
pub fn optional<T: Member>(object: &mut Object, key: &str) -> Read<Option<T>> {
    Ok(given(object, key)?.flatten())
}

/// Refuses an object in which something was left over.
pub fn emptied(object: &Object) -> Read<()> {
    if object.is_empty() {
        Ok(())
    } else {
        Err(Unreadable)
    }
}

impl Member for String {
    fn read(value: Value) -> Read<String> {
        match value {
            Value::String(text) => Ok(text),
            _ => Err(Unreadable),
        }
    }
}

impl Member for bool {
    fn read(value: Value) -> Read<bool> {
        value.as_bool().ok_or(Unreadable)
    }
}

impl Member for u64 {
    fn read(value: Value) -> Read<u64> {
        value.as_u64().ok_or(Unreadable)
    }
}

impl Member for i64 {
    fn read(value: Value) -> Read<i64> {
        value.as_i64().ok_or(Unreadable)
    }
}

impl Member for u32 {
    fn read(value: Value) -> Read<u32> {
        u64::read(value)?.try_into().map_err(|_| Unreadable)
    }
}

impl Member for u16 {
    fn read(value: Value) -> Read<u16> {
        u64::read(value)?.try_into().map_err(|_| Unreadable)
    }
}

impl Member for Object {
    fn read(value: Value) -> Read<Object> {
        match value {
            Value::Object(object) => Ok(object),
            _ => Err(Unreadable),
        }
    }
}

impl<T: Member> Member for Option<T> {
    fn read(value: Value) -> Read<Option<T>> {
        match value {
            Value::Null => Ok(None),
            value => T::read(value).map(Some),
        }
    }
}

impl<T: Member> Member for Vec<T> {
    fn read(value: Value) -> Read<Vec<T>> {
        match value {
            Value::Array(items) => items.into_iter().map(T::read).collect(),
            _ => Err(Unreadable),
        }
    }
}

/// Whether a number that is no whole number of 64 bits stands anywhere in the value.
pub fn has_float(value: &Value) -> bool {
    match value {
        Value::Number(number) => number.is_f64(),
        Value::Array(items) => items.iter().any(has_float),
        Value::Object(members) => members.values().any(has_float),
        _ => false,
    }
}
