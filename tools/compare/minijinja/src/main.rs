//! Renders a page by minijinja, with the command line of liquid_page:
//! `minijinja_page TEMPLATE DATA [NAME=FILE ..]`.
use minijinja::{AutoEscape, Environment, Value};
use std::error::Error;
use std::io::{self, Write};
use std::{env, fs};

fn main() -> Result<(), Box<dyn Error>> {
    let words: Vec<String> = env::args().skip(1).collect();
    let [template, data, partials @ ..] = words.as_slice() else {
        return Err("usage: minijinja_page TEMPLATE DATA [NAME=FILE ..]".into());
    };
    let mut environment = Environment::new();
    environment.set_auto_escape_callback(|_| AutoEscape::None);
    environment.set_keep_trailing_newline(true);
    for word in partials {
        let (name, file) = word.split_once('=').ok_or("a partial is NAME=FILE")?;
        environment.add_template_owned(name.to_owned(), fs::read_to_string(file)?)?;
    }
    environment.add_template_owned("the page", fs::read_to_string(template)?)?;
    let data: Value = serde_json::from_str(&fs::read_to_string(data)?)?;
    let page = environment.get_template("the page")?;
    io::stdout().write_all(page.render(&data)?.as_bytes())?;
    Ok(())
}
