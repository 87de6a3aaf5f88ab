//! The recipes of docs/COOKBOOK.md in C: each program prints what stands below it. Those in Rust are run by bindings/rust.

use std::fs::{read_to_string, write};
use std::path::PathBuf;

use floelinnet_tests::tools;

use crate::programs::{compile, file, made, output, prints};

/// A block of C on the page, by the file name with which it begins, and the block of text below it, if there is one.
struct Recipe {
    name: String,
    code: String,
    printed: Option<String>,
}

fn recipes() -> Vec<Recipe> {
    let page = read_to_string(file("docs/COOKBOOK.md")).unwrap();
    let mut recipes: Vec<Recipe> = Vec::new();
    for block in page.split("```\n").filter_map(|part| part.split_once("```")) {
        let (language, text) = block.1.split_once('\n').expect("a block has lines");
        match language {
            "c" => {
                let name =
                    text.strip_prefix("/* ").and_then(|text| text.split_once(':')).expect("a name comes first").0;
                recipes.push(Recipe { name: name.into(), code: text.into(), printed: None });
            }
            "text" => recipes.last_mut().expect("text stands below a program").printed = Some(text.into()),
            _ => assert_eq!(language, "rust"),
        }
    }
    recipes
}

/// The recipe's file, beside those that it includes.
fn written(recipe: &Recipe) -> PathBuf {
    let path = made(&recipe.name);
    write(&path, &recipe.code).unwrap();
    path
}

#[test]
fn every_recipe_in_c() {
    let recipes = recipes();
    let names: Vec<&str> = recipes.iter().map(|recipe| recipe.name.as_str()).collect();
    let want = [
        "table_of.h",
        "row.c",
        "two_limits.c",
        "lost.c",
        "battery.c",
        "make_table.c",
        "stored.c",
        "refused.c",
        "night_log.c",
    ];
    assert_eq!(names, want);
    for recipe in &recipes {
        let source = written(recipe);
        let Some(printed) = &recipe.printed else {
            assert_eq!(recipe.name, "table_of.h");
            continue;
        };
        prints(&source, &printed.lines().collect::<Vec<_>>());
        // "run while building, as `make_table > stored_table.h`"
        if recipe.name == "make_table.c" {
            let program = compile(&["gcc", "-std=c11"], &source);
            write(made("stored_table.h"), output(&mut tools::program(program))).unwrap();
        }
    }
}
