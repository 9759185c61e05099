// Lists, places in a text, codes, and maps made one from another.

use crate::part_rows::numbers::numbers;
use crate::part_rows::refusals::{no_memory, refused};
use bstr::ByteVec;
use persistent_maps::PersistentMap;
use std::alloc::Global;
use std::io;
use sts_base::{Code, NoMemory, Seq, number, place};

/// Two words in a list: how many there are, the second, the third, and all.
fn write_words(alloc: Global, text: &mut String) -> io::Result<()> {
    let mut words = Seq::new(alloc);
    words.push(7u32).map_err(no_memory)?;
    words.push(9).map_err(no_memory)?;
    let (count, second, third) = (words.len(), words.get(1), words.get(2));
    write!(text, "{count} {second:?} {third:?}")?;
    for word in words.as_slice() {
        write!(text, " {word}")?;
    }
    text.push('\n')?;
    Ok(())
}

/// A type that holds lists of itself.
#[derive(Debug, Drop)]
enum Tree {
    Leaf(u32),
    Branches(Seq<Tree>),
}

/// A leaf, and a tree without any.
fn tree(alloc: Global) -> Result<Tree, NoMemory> {
    let mut branches = Seq::new(alloc);
    branches.push(Tree::Leaf(5))?;
    branches.push(Tree::Branches(Seq::new(alloc)))?;
    Ok(Tree::Branches(branches))
}

/// Writes a tree's leaves, and how many branches there are where it has no leaf.
fn write_tree(text: &mut String, tree: &Tree) -> io::Result<()> {
    match tree {
        Tree::Leaf(word) => write!(text, " leaf {word}")?,
        Tree::Branches(all) => {
            let count = all.len();
            write!(text, " {count} branches")?;
            for branch in all.as_slice() {
                write_tree(text, branch)?;
            }
        }
    }
    Ok(())
}

/// Writes what a list has that was made of `words`, or of a type that holds lists of itself.
pub fn write_list(alloc: Global, text: &mut String, asked: &str) -> io::Result<()> {
    match asked {
        "words" => write_words(alloc, text),
        "trees" => {
            let tree = tree(alloc).map_err(no_memory)?;
            write_tree(text, &tree)?;
            text.push('\n')?;
            Ok(())
        }
        _ => Err(refused("no such list")),
    }
}

/// Writes line and column of a byte of a text: `place 2 «a\nb»`.
pub fn write_place(alloc: Global, text: &mut String, asked: &str) -> io::Result<()> {
    let (at, written) = asked.split_once(" «").unwrap_or(("", ""));
    let (Ok(at), Some(written)) = (at.parse::<u32>(), written.strip_suffix('»')) else {
        return Err(refused("no place"));
    };
    let bytes = Vec::unescape_bytes(alloc, written)?;
    if at as usize > bytes.len() {
        return Err(refused("no place of that text"));
    }
    let (line, column) = place(bytes.as_slice(), at);
    write!(text, "{line}:{column}\n")?;
    Ok(())
}

/// Writes the number of a refusal's code.
pub fn write_code(text: &mut String, asked: &str) -> io::Result<()> {
    let code = match asked {
        "TextTooLong" => Code::TextTooLong,
        "UnknownName" => Code::UnknownName,
        "OverLimit" => Code::OverLimit,
        _ => return Err(refused("no code")),
    };
    let number = number(code);
    write!(text, "{number}\n")?;
    Ok(())
}

/// Maps each of which has one number more than that before it, which the first of these numbers has; a number's value is 100 and how many maps came before.
fn maps_of(alloc: Global, keys: &[i32]) -> Result<Vec<PersistentMap>, NoMemory> {
    let mut made = Vec::new(alloc);
    let mut last = PersistentMap::Empty;
    for (count, key) in keys.iter().enumerate() {
        last = last.with(alloc, key.cast_unsigned(), 100 + count)?;
        made.push(last.share()?).map_err(|_| NoMemory)?;
    }
    Ok(made)
}

/// Makes maps one from another, and writes of each number that is asked what it has in each, a dash for nothing: `maps 5 7 : 7 8`.
pub fn write_maps(alloc: Global, text: &mut String, asked: &str) -> io::Result<()> {
    let Some((keys, sought)) = asked.split_once(" : ") else {
        return Err(refused("nothing is asked"));
    };
    let made = maps_of(alloc, numbers(alloc, keys)?.as_slice()).map_err(no_memory)?;
    for x in numbers(alloc, sought)?.as_slice() {
        write!(text, "{x}:")?;
        for map in made.as_slice() {
            match map.get(x.cast_unsigned()) {
                Some(value) => write!(text, " {value}")?,
                None => text.push_str(" -")?,
            }
        }
        text.push('\n')?;
    }
    Ok(())
}
