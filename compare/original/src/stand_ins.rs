//! What the sources use of the rest of their project, as document 01 fixes it for the comparison.

use std::io::{self, Read};
use std::marker::PhantomData;

pub mod statements {
    /// `Buffer` is named by `values.rs` alone: no payload holds it.
    #[derive(Debug, Clone, Copy, PartialEq)]
    pub enum HandleKind {
        C = 0,
        Net = 1,
        Http = 2,
        Audio = 3,
        Gui = 4,
        File = 5,
        Buffer = 6,
    }
}

pub mod span {
    /// Two numbers, kept as they are and compared by both.
    #[derive(Debug, Clone, Copy, PartialEq, Default)]
    pub struct Span {
        pub start: usize,
        pub end: usize,
    }

    impl Span {
        pub fn new(start: usize, end: usize) -> Self {
            Self { start, end }
        }
    }
}

pub mod runtime {
    /// Nothing runs here.
    #[derive(Clone)]
    pub struct VmRuntime;
}

pub mod native {
    use crate::values::{VmNative, VmNativeFn};
    use std::collections::HashMap;
    use std::rc::Rc;

    /// A function that is only named, never called.
    pub type NativeFn = fn();

    /// The natives, each registered under its own name.
    #[derive(Default)]
    pub struct Module {
        pub functions: HashMap<String, VmNative>,
        pub submodules: HashMap<String, Module>,
    }

    impl Module {
        pub fn of_names<'a>(names: impl IntoIterator<Item = &'a str>) -> Self {
            Self {
                functions: names.into_iter().map(registered).collect(),
                submodules: HashMap::new(),
            }
        }
    }

    fn registered(name: &str) -> (String, VmNative) {
        (name.to_string(), named(name))
    }

    pub fn named(name: &str) -> VmNative {
        VmNative::Legacy(Rc::new(VmNativeFn {
            name: name.to_string(),
            func: || (),
        }))
    }
}

/// The other kind of native; `values.rs` reads its name.
#[derive(Clone)]
pub struct NativeHandle<R> {
    pub name: &'static str,
    runtime: PhantomData<R>,
}

/// Compression that copies, so that a chunk file is its magic and the payload.
pub fn encode_all(mut source: impl Read, _level: i32) -> io::Result<Vec<u8>> {
    let mut bytes = Vec::new();
    source.read_to_end(&mut bytes)?;
    Ok(bytes)
}

pub fn decode_all(source: impl Read) -> io::Result<Vec<u8>> {
    encode_all(source, 0)
}
