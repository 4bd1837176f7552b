// SPDX-License-Identifier: Apache-2.0
//! A writer of values in Thrift's compact protocol.
#![allow(dead_code)]

/// A value of Thrift's compact protocol: a number of 32 bits is short.
pub enum Value {
    Bool(bool),
    Short(i64),
    Number(i64),
    Bytes(Vec<u8>),
    List(Vec<Value>),
    /// A list of Booleans, which take a byte each.
    Truths(Vec<bool>),
    Fields(Vec<(u8, Value)>),
}
use Value::{Bool, Bytes, Fields, List, Number, Short, Truths};

fn varint(mut number: u64, out: &mut Vec<u8>) {
    while number > 0x7f {
        out.push(number as u8 | 0x80);
        number >>= 7;
    }
    out.push(number as u8);
}

impl Value {
    fn kind(&self) -> u8 {
        match self {
            Bool(true) => 1,
            Bool(false) => 2,
            Short(_) => 5,
            Number(_) => 6,
            Bytes(_) => 8,
            List(_) | Truths(_) => 9,
            Fields(_) => 12,
        }
    }

    pub fn write(&self, out: &mut Vec<u8>) {
        match self {
            Bool(_) => {}
            Short(number) | Number(number) => varint((number << 1 ^ number >> 63) as u64, out),
            Bytes(bytes) => {
                varint(bytes.len() as u64, out);
                out.extend(bytes);
            }
            List(items) => {
                out.push(0xf0 | items.first().map_or(12, Value::kind));
                varint(items.len() as u64, out);
                items.iter().for_each(|item| item.write(out));
            }
            Truths(truths) => {
                out.push(0xf1);
                varint(truths.len() as u64, out);
                out.extend(truths.iter().map(|truth| 2 - u8::from(*truth)));
            }
            Fields(fields) => {
                let mut before = 0;
                for (id, value) in fields {
                    out.push((id - before) << 4 | value.kind());
                    value.write(out);
                    before = *id;
                }
                out.push(0);
            }
        }
    }
}
