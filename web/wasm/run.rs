//! run SEL4SIM.WASM WORD..: runs sel4sim with these words, by the crate wasmtime. Files are read from the disk.
use std::io::Write;
use wasmtime::{Caller, Engine, Extern, Linker, Module, Result, Store};

type Unread = Vec<std::io::Cursor<Vec<u8>>>;

/// The program's memory, and what is unread of each file.
fn parts<'a>(caller: &'a mut Caller<'_, Unread>) -> (&'a mut [u8], &'a mut Unread) {
    let memory = caller.get_export("memory").and_then(Extern::into_memory).expect("a memory");
    memory.data_and_store_mut(caller)
}

fn main() -> Result<()> {
    let mut words: Vec<Vec<u8>> = std::env::args().skip(1).map(String::into_bytes).collect();
    let engine = Engine::default();
    let module = Module::from_file(&engine, String::from_utf8_lossy(&words[0]).as_ref())?;
    words[0] = b"sel4sim".to_vec(); // the first word is the program's name
    let mut linker: Linker<Unread> = Linker::new(&engine);
    linker.func_wrap("host", "read", |mut caller: Caller<'_, Unread>, file: i32, at: i64, count: i64| -> i64 {
        let (memory, unread) = parts(&mut caller);
        std::io::Read::read(&mut unread[file as usize], &mut memory[at as usize..][..count as usize]).unwrap_or(0) as i64
    })?;
    linker.func_wrap("host", "write", |mut caller: Caller<'_, Unread>, file: i32, at: i64, count: i64| -> i64 {
        let bytes = &parts(&mut caller).0[at as usize..][..count as usize];
        let written = if file == 1 { std::io::stdout().write_all(bytes) } else { std::io::stderr().write_all(bytes) };
        if written.is_ok() { count } else { -1 }
    })?;
    linker.func_wrap("host", "argument", move |mut caller: Caller<'_, Unread>, number: i64, at: i64, count: i64| -> i64 {
        let Some(word) = words.get(number as usize) else { return -1 };
        let fits = word.len().min(count as usize);
        parts(&mut caller).0[at as usize..][..fits].copy_from_slice(&word[..fits]);
        word.len() as i64
    })?;
    linker.func_wrap("host", "open", |mut caller: Caller<'_, Unread>, at: i64| -> i32 {
        let (memory, unread) = parts(&mut caller);
        let name: Vec<u8> = memory[at as usize..].iter().take_while(|byte| **byte != 0).copied().collect();
        let Ok(bytes) = std::fs::read(String::from_utf8_lossy(&name).as_ref()) else { return -1 };
        unread.push(std::io::Cursor::new(bytes));
        unread.len() as i32 - 1
    })?;
    linker.func_wrap("host", "exit", |status: i32| -> () { std::process::exit(status) })?;
    let mut store = Store::new(&engine, vec![std::io::Cursor::default(); 3]);
    let instance = linker.instantiate(&mut store, &module)?;
    let status = instance.get_typed_func::<(i32, i64), i32>(&mut store, "main")?.call(&mut store, (0, 0))?;
    std::process::exit(status)
}
