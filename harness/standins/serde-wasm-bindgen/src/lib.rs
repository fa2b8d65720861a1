//! Stands in for the crate `serde-wasm-bindgen`: the one function that src/ast.rs names. Nothing here calls it.

use wasm_bindgen::JsValue;

pub fn to_value<T: serde::Serialize + ?Sized>(_value: &T) -> Result<JsValue, JsValue> {
    Err(JsValue::NULL)
}
