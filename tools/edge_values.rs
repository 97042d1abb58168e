//! Writes the table of edge values for the arithmetic test in `base_rows`: for each operator and each
//! integer type, what Rust itself computes with overflow checks.
//!
//!     rustc --edition 2021 -o /tmp/edge_values tools/edge_values.rs
//!     /tmp/edge_values > crates/base_rows/src/edge_values.rt
//!
//! A line has an operator, a type and rows. A row is left side, right side and result. The result is
//! a number or a truth value, or `overflow` or `zero` where Rust panics. `Neg` and `Not` have no
//! right side, which is written `-`. That of `As` is the type that is cast to.

macro_rules! casts {
    ($put:ident, $a:expr, $($to:ident $word:expr),*) => {
        $($put("As", format!("{} {} {}", $a, $word, $a as $to));)*
    };
}

macro_rules! edges {
    ($ty:ident, $name:expr) => {{
        let (min, max, bits) = ($ty::MIN, $ty::MAX, $ty::BITS as $ty);
        let (one, two) = (1 as $ty, 2 as $ty);
        // every other bit set; every bit set, which is -1 in a signed type
        let (mixed, ones) = (max / 3, !(0 as $ty));
        let shown = |n: Option<$ty>, panic: &str| n.map_or(panic.to_string(), |n| n.to_string());
        let mut lines: Vec<(&str, Vec<String>)> = Vec::new();
        let mut put = |op: &'static str, row: String| match lines.iter_mut().find(|l| l.0 == op) {
            Some(line) => line.1.push(row),
            None => lines.push((op, vec![row])),
        };
        for (a, b) in [(max, one), (max, 0), (min, ones), (mixed, mixed)] {
            put("Add", format!("{a} {b} {}", shown(a.checked_add(b), "overflow")));
        }
        for (a, b) in [(min, one), (max, max), (0, max), (max, min)] {
            put("Sub", format!("{a} {b} {}", shown(a.checked_sub(b), "overflow")));
        }
        for (a, b) in [(max, two), (min, ones), (mixed, two), (max / two, two)] {
            put("Mul", format!("{a} {b} {}", shown(a.checked_mul(b), "overflow")));
        }
        for (a, b) in [(min, ones), (max, 0), (min, two), (max, ones), (ones - 6, two)] {
            let panic = if b == 0 { "zero" } else { "overflow" };
            put("Div", format!("{a} {b} {}", shown(a.checked_div(b), panic)));
            put("Rem", format!("{a} {b} {}", shown(a.checked_rem(b), panic)));
        }
        for (a, b) in [(mixed, bits - 1), (max, one), (min, one), (one, bits), (one, ones)] {
            let places = u32::try_from(b).ok();
            put("Shl", format!("{a} {b} {}", shown(places.and_then(|k| a.checked_shl(k)), "overflow")));
            put("Shr", format!("{a} {b} {}", shown(places.and_then(|k| a.checked_shr(k)), "overflow")));
        }
        for (a, b) in [(min, max), (ones, mixed), (mixed, max - mixed)] {
            put("And", format!("{a} {b} {}", a & b));
            put("Or", format!("{a} {b} {}", a | b));
            put("Xor", format!("{a} {b} {}", a ^ b));
            put("Eq", format!("{a} {b} {}", a == b));
            put("Ne", format!("{a} {b} {}", a != b));
            put("Lt", format!("{a} {b} {}", a < b));
            put("Le", format!("{a} {b} {}", a <= b));
            put("Gt", format!("{a} {b} {}", a > b));
            put("Ge", format!("{a} {b} {}", a >= b));
        }
        for a in [min, one, max] {
            put("Neg", format!("{a} - {}", shown((0 as $ty).checked_sub(a), "overflow")));
            put("Not", format!("{a} - {}", !a));
        }
        casts!(put, ones, u8 "U8", u16 "U16", u32 "U32", u64 "U64", u128 "U128", usize "Usize");
        casts!(put, ones, i8 "I8", i16 "I16", i32 "I32", i64 "I64", i128 "I128", isize "Isize");
        for (op, rows) in lines {
            println!("{op} {} {}", $name, rows.join("; "));
        }
    }};
}

fn main() {
    println!("/// For each operator and each integer type what Rust computes with overflow checks: operator,");
    println!("/// type, and rows of left side, right side and result.");
    println!("pub(crate) const EDGE_VALUES: &str = \"\\");
    edges!(u8, "U8");
    edges!(u16, "U16");
    edges!(u32, "U32");
    edges!(u64, "U64");
    edges!(u128, "U128");
    edges!(usize, "Usize");
    edges!(i8, "I8");
    edges!(i16, "I16");
    edges!(i32, "I32");
    edges!(i64, "I64");
    edges!(i128, "I128");
    edges!(isize, "Isize");
    println!("\";");
}
