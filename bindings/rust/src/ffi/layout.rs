//! Holds the layout of [`Answer`] to that of `lakhido_answer`, that of [`WindowAnswer`] to that of `lakhido_window_answer`, and that of [`BatchAnswer`] to
//! that of `lakhido_batch_answer`, which a small C program prints from the header (bindings/c/layout.c). CC names the compiler; else it is cc.
use super::{Answer, BatchAnswer, WindowAnswer};
use std::mem::offset_of;
use std::path::Path;
use std::process::Command;

/// The lines of a struct of the wrapper, under its name in C, for the fields of a list, which names each field once or does not compile. A field is a number
/// or an array of numbers.
macro_rules! lines {
    ($type:ident, $c:literal, $($field:ident)*) => {{
        let $type { $($field),* } = $type { $($field: Default::default()),* };
        let fields = [$(format!("{}.{}: offset {}, bytes {}", $c, stringify!($field), offset_of!($type, $field), size_of_val(&$field))),*];
        fields.into_iter().chain([format!("{}: size {}", $c, size_of::<$type>())])
    }};
}

/// What a program prints.
fn printed(command: &mut Command) -> String {
    let output = command.output().unwrap_or_else(|error| panic!("{command:?} does not run: {error}"));
    assert!(output.status.success(), "{command:?} failed:\n{}", String::from_utf8_lossy(&output.stderr));
    String::from_utf8(output.stdout).expect("text")
}

/// The lines of the header's structs.
fn of_header() -> Vec<String> {
    let bindings = Path::new(env!("CARGO_MANIFEST_DIR")).join("..");
    let program = Path::new(env!("OUT_DIR")).join("layout");
    let compiler = std::env::var("CC").unwrap_or_else(|_| "cc".to_string());
    let mut compile = Command::new(compiler);
    compile.args(["-std=c99", "-Wall", "-Wextra", "-I"]).arg(bindings.join("../include")).arg("-o").arg(&program).arg(bindings.join("c/layout.c"));
    printed(&mut compile);
    printed(&mut Command::new(program)).lines().map(str::to_string).collect()
}

#[test]
fn answers_are_laid_out_as_in_c() {
    let answer = lines!(Answer, "lakhido_answer", refusal side place value searched arcs depth);
    let window = lines!(WindowAnswer, "lakhido_window_answer", refusal side place found start length arcs depth);
    let batch = lines!(BatchAnswer, "lakhido_batch_answer", refusal side place read counts searched);
    let (header, wrapper): (_, Vec<String>) = (of_header(), answer.chain(window).chain(batch).collect());
    for (k, (c, rust)) in header.iter().zip(&wrapper).enumerate() {
        assert_eq!(c, rust, "line {} of the layout of the answers: include/lakhido.h (left) and src/ffi.rs (right) differ", k + 1);
    }
    assert_eq!(header.len(), wrapper.len(), "lines of bindings/c/layout.c (left) and of src/ffi.rs (right)");
}
