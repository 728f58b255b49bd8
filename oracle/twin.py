#!/usr/bin/env python3
"""twin.py CRATES.TXT OUT.rs NAME..: the named crates and what they use, with the contracts left out, as one file of Rust.

Rattle's code is Rust but for its contracts, so this is the same method in Rust, step by step: what the benchmarks compare with.
std::num's functions become Rust's own operations, and what is used of the kit's io, libc and os becomes Rust's std."""
import os
import re
import sys

NUM = '''
#[allow(dead_code)]
pub mod num {
    pub fn wrapping_add_u64(a: u64, b: u64) -> u64 { a.wrapping_add(b) }
    pub fn wrapping_sub_u64(a: u64, b: u64) -> u64 { a.wrapping_sub(b) }
    pub fn wrapping_add_u128(a: u128, b: u128) -> u128 { a.wrapping_add(b) }
    pub fn wrapping_sub_u128(a: u128, b: u128) -> u128 { a.wrapping_sub(b) }
    pub fn wrapping_add_usize(a: usize, b: usize) -> usize { a.wrapping_add(b) }
    pub fn wrapping_sub_usize(a: usize, b: usize) -> usize { a.wrapping_sub(b) }
    pub fn wrapping_add_u32(a: u32, b: u32) -> u32 { a.wrapping_add(b) }
    pub fn wrapping_sub_u32(a: u32, b: u32) -> u32 { a.wrapping_sub(b) }
    pub fn truncating_f64_to_u64(x: f64) -> u64 { x as u64 }
    pub fn truncating_f64_to_i64(x: f64) -> i64 { x as i64 }
    pub fn nearest_u64_to_f64(x: u64) -> f64 { x as f64 }
}
'''

# What the crates use of the kit's libraries.
KIT = {
    'libc': '''
#[allow(dead_code)]
pub mod libc {
    pub const STDERR_FILENO: i32 = 2;
    pub const PATH_MAX: usize = 4096;
    mod c {
        extern "C" {
            pub fn read(file: i32, into: *mut u8, n: usize) -> isize;
            pub fn write(file: i32, from: *const u8, n: usize) -> isize;
            pub fn close(file: i32) -> i32;
            pub fn fsync(file: i32) -> i32;
            pub fn getpid() -> i32;
        }
    }
    pub fn read(file: i32, into: &mut [u8]) -> isize { unsafe { c::read(file, into.as_mut_ptr(), into.len()) } }
    pub fn write(file: i32, from: &[u8]) -> isize { unsafe { c::write(file, from.as_ptr(), from.len()) } }
    pub fn close(file: i32) -> i32 { unsafe { c::close(file) } }
    pub fn fsync(file: i32) -> i32 { unsafe { c::fsync(file) } }
    pub fn getpid() -> i32 { unsafe { c::getpid() } }
}
''',
    'io': '''
#[allow(dead_code)]
pub mod io {
    pub fn buffer() -> [u8; 4096] { [0; 4096] }
    pub fn count(got: isize, buf: &[u8]) -> usize { got.clamp(0, buf.len() as isize) as usize }
    pub fn write_all(file: i32, buf: &[u8]) -> bool {
        let mut done = 0;
        while done < buf.len() {
            let n = count(crate::libc::write(file, &buf[done..]), &buf[done..]);
            if n == 0 { return false; }
            done += n;
        }
        true
    }
}
''',
    'os': '''
#[allow(dead_code)]
pub mod os {
    use std::fs::{self, File, OpenOptions};
    use std::os::fd::IntoRawFd;
    use std::os::unix::ffi::{OsStrExt, OsStringExt};
    fn path(name: &[u8]) -> &std::ffi::OsStr { std::ffi::OsStr::from_bytes(name) }
    pub fn open_read(name: &[u8]) -> i32 { File::open(path(name)).map_or(-1, |f| f.into_raw_fd()) }
    pub fn create(name: &[u8]) -> i32 { OpenOptions::new().write(true).create_new(true).open(path(name)).map_or(-1, |f| f.into_raw_fd()) }
    pub fn rename(from: &[u8], to: &[u8]) -> i32 { fs::rename(path(from), path(to)).map_or(-1, |_| 0) }
    pub fn unlink(name: &[u8]) -> i32 { fs::remove_file(path(name)).map_or(-1, |_| 0) }
    pub fn arg_count() -> usize { std::env::args_os().count() }
    pub fn arg(i: usize, into: &mut [u8]) -> usize {
        let word = std::env::args_os().nth(i).unwrap_or_default().into_vec();
        let n = word.len().min(into.len());
        into[..n].copy_from_slice(&word[..n]);
        n
    }
}
''',
}


# A clause, a ghost field or a ghost member begins so, and ends with the brace that closes it and what follows that.
GHOST = re.compile(r'\n[ \t]*(?:(?:requires|ensures)\b[^{\n]*\{|(?:pub )?ghost (?!use\b)[^{;\n]*\{|impl Model for [^{\n]*\{)')


def without_contracts(text):
    text = re.sub(r'^\s*ghost use [^;]*;\n', '', text, flags=re.M)
    text = re.sub(r'^\s*#!?\[(tactic|cycle)\b[^\n]*\n', '', text, flags=re.M)
    text = re.sub(r'^use std::marker::Model;\n', '', text, flags=re.M)
    text = re.sub(r'^(\s*)final fn ', r'\1fn ', text, flags=re.M)
    out, i = [], 0
    while True:
        m = GHOST.search(text, i)
        if not m:
            out.append(text[i:])
            return ''.join(out)
        out.append(text[i:m.start()])
        depth, i = 1, m.end()
        while depth:
            depth += {'{': 1, '}': -1}.get(text[i], 0)
            i += 1
        if 'ghost ' in m.group() and text[i] in ',;': i += 1


def module(crates, name, path, deps):
    text = without_contracts(open(path, encoding='utf-8').read())
    text = text.replace('crate::', f'crate::{name}::').replace('std::num::', 'crate::num::')
    text = re.sub(r'^use (%s)::' % '|'.join(deps + ['-']), r'use crate::\1::', text, flags=re.M)
    uses = ''.join(f'#[allow(unused_imports)]\nuse crate::{d};\n' for d in deps if not re.search(r'^use crate::%s;' % d, text, flags=re.M))
    folder = os.path.dirname(path)

    def inline(m):
        inner = module(crates, name, os.path.join(folder, m.group(2) + '.rt'), deps)
        return f'{m.group(1) or ""}mod {m.group(2)} {{\n{inner}}}\n'

    text = re.sub(r'^(pub )?mod (\w+);\n', inline, text, flags=re.M)
    return uses + text


def main():
    crates_txt, out, names = sys.argv[1], sys.argv[2], sys.argv[3:]
    crates = {}
    for line in open(crates_txt, encoding='utf-8'):
        line = line.split('#')[0].strip()
        if line:
            name, _, deps = line.partition(':')
            crates[name.split()[0]] = deps.split()
    order, kit = [], set()

    def reach(name):
        if name in KIT:
            kit.update(KIT if name == 'os' else [name, 'libc'])
        if name in crates and name not in order:
            for d in crates[name]:
                reach(d)
            order.append(name)

    for name in names:
        reach(name)
    text = ['#![allow(dead_code, unused_variables, clippy::all)]\n', NUM] + [KIT[name] for name in sorted(kit)]
    root = os.path.join(os.path.dirname(crates_txt), 'crates')
    for name in order:
        path = os.path.join(root, name, 'src', 'lib.rt')
        deps = [d for d in crates[name] if d in crates or d in KIT]
        text.append(f'pub mod {name} {{\n{module(crates, name, path, deps)}}}\n')
    open(out, 'w', encoding='utf-8').write(''.join(text))


main()
