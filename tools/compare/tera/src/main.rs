//! Renders a page by Tera, with the command line of liquid_page: `tera_page TEMPLATE DATA [NAME=FILE ..]`.
use std::error::Error;
use std::io::{self, Write};
use std::{env, fs};
use tera::{Context, Tera};

fn main() -> Result<(), Box<dyn Error>> {
    let words: Vec<String> = env::args().skip(1).collect();
    let [template, data, partials @ ..] = words.as_slice() else {
        return Err("usage: tera_page TEMPLATE DATA [NAME=FILE ..]".into());
    };
    let mut tera = Tera::default();
    tera.autoescape_on(Vec::new());
    for word in partials {
        let (name, file) = word.split_once('=').ok_or("a partial is NAME=FILE")?;
        tera.add_raw_template(name, &fs::read_to_string(file)?)?;
    }
    tera.add_raw_template("the page", &fs::read_to_string(template)?)?;
    let data = serde_json::from_str(&fs::read_to_string(data)?)?;
    let page = tera.render("the page", &Context::from_value(data)?)?;
    io::stdout().write_all(page.as_bytes())?;
    Ok(())
}
