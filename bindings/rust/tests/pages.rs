//! Pages, faults and threads.
use bikleinu::{Data, Kind, Language, Limits, LiquidError, Location, Origin, Page, Partials, Template};
use std::error::Error;
use std::thread;

fn template(source: &str) -> Result<Template, LiquidError> {
    Language::new()?.parse(source)
}

#[test]
fn a_template_renders_many_times() -> Result<(), LiquidError> {
    let template = template("{% for i in items %}{{ i | plus: 1 }},{% endfor %}")?;
    let partials = Partials::new()?;
    for (items, text) in [("[1,2]", "2,3,"), ("[]", ""), ("[40]", "41,")] {
        let data = Data::from_json(&format!("{{\"items\":{items}}}"))?;
        let page = template.render(&data, &partials, 32)?;
        assert_eq!(template.render_text_with(&data, &partials)?, text);
        assert_eq!((page.text.as_str(), page.fault), (text, None));
    }
    Ok(())
}

#[test]
fn partials_and_their_depth() -> Result<(), LiquidError> {
    let language = Language::new()?;
    let mut partials = Partials::new()?;
    partials.insert("a", language.parse("[{{ x }}]")?)?;
    let page = language.parse("{% render 'a', x: 7 %}")?;
    let data = Data::from_json("{}")?;
    assert_eq!(page.render(&data, &partials, 1)?.text, "[7]");
    let fault = page.render(&data, &partials, 0)?.fault.expect("one partial is nested");
    assert_eq!((fault.number, fault.name.as_str()), (13, "TooDeep"));
    Ok(())
}

#[test]
fn faults_tell_their_kind_and_place() {
    let fault = template("a\n {{ b | nope }}").expect_err("there is no such filter");
    assert_eq!((fault.number, fault.name.as_str(), fault.is_memory()), (27, "UnknownFilter", false));
    assert!(matches!(fault.location, Some(Location { origin: Origin::Template, line: 2, .. })), "{fault:?}");
    let fault = Data::from_json("[1]").expect_err("a list is no data");
    assert_eq!((fault.number, fault.location.map(|it| it.origin)), (2, Some(Origin::Data)));
}

#[test]
fn errors_say_what_and_where() -> Result<(), LiquidError> {
    let fault = template("a\n {{ b | pope }}").unwrap_err();
    assert_eq!(fault.to_string(), "UnknownFilter: line 2, column 9: no filter is named `pope`; did you mean `pop`?");
    assert!(fault.kind() == Kind::UnknownFilter && fault.source().is_none());
    let fault = Data::from_json("{").unwrap_err();
    assert!(fault.to_string().starts_with("InvalidInput: in the data: line 1, column 2: "), "{fault}");
    let mut partials = Partials::new()?;
    partials.insert("p", template("\n{{ x }}")?)?;
    let page = template("1{% render 'p' %}")?.render(&Data::none(), &partials, 32)?;
    let fault = page.into_text().unwrap_err();
    assert!(fault.to_string().starts_with("UnknownVariable: in the partial `p`: line 2, column 4: "), "{fault}");
    let boxed: Box<dyn Error + Send + Sync> = fault.clone().into();
    assert_eq!(boxed.to_string(), fault.to_string());
    assert_eq!(template("{{ 1 | plus: 2 }}")?.render_text(&Data::none())?, "3");
    Ok(())
}

#[test]
fn values_are_shown_by_their_types() -> Result<(), LiquidError> {
    let shown = format!("{:?} {:?} {:?}", template("")?, Data::none(), Partials::new()?);
    assert_eq!(shown, "Template { .. } Data { .. } Partials { .. }");
    Ok(())
}

/// A page of 100 blocks round a partial of the same, which runs itself, on a stack of so many MiB.
fn deep_page(mebibytes: usize, limits: Limits) -> Result<Page, LiquidError> {
    let run = move || {
        let source = format!("{}{{% render 'a' %}}{}", "{% if true %}".repeat(100), "{% endif %}".repeat(100));
        let language = Language::new()?;
        let mut partials = Partials::new()?;
        partials.insert("a", language.parse(&source)?)?;
        language.parse(&source)?.render_within(&Data::from_json("{}")?, &partials, 32, limits)
    };
    let stack = thread::Builder::new().stack_size(mebibytes << 20);
    stack.spawn(run).expect("a thread can be had").join().expect("the stack is enough")
}

#[test]
fn a_run_that_could_go_too_deep_isnt_begun() {
    let usual = deep_page(1, Limits::default()).expect_err("it could reach 3333 levels");
    assert!(usual.is_too_many_levels() && usual.name == "TooManyLevels", "{usual}");
    assert!(deep_page(1, Limits::default().levels(3332)).err().is_some_and(|it| it.is_too_many_levels()));
    let page = deep_page(8, Limits::default().levels(3333)).expect("so many levels are allowed");
    assert_eq!(page.fault.map(|fault| fault.number), Some(13));
}

#[test]
fn limits_end_a_page() -> Result<(), LiquidError> {
    let endless = template("{% for i in (1..9223372036854775807) %}{{ i }}{% endfor %}")?;
    let (data, partials) = (Data::from_json("{}")?, Partials::new()?);
    for (limits, name) in [(Limits::default().max_bytes(3), "BytesReached"), (Limits::default().max_turns(4), "TurnsReached")] {
        let page = endless.render_within(&data, &partials, 32, limits)?;
        let fault = page.fault.expect("the loop has no end");
        assert_eq!((page.text.as_str(), fault.name.as_str(), fault.is_limit()), ("123", name, true));
    }
    Ok(())
}

#[test]
fn eight_threads_over_one_template() -> Result<(), LiquidError> {
    let language = Language::new()?;
    let mut partials = Partials::new()?;
    partials.insert("end", language.parse("{{ n | plus: 1 }}!")?)?;
    let template = language.parse("{{ n }}{% render 'end', n: n %}{{ who }}")?;
    let data = Data::from_json(r#"{"n": 3, "who": "Ada"}"#)?;
    let run = |number: u32| {
        let mine = Data::from_json(&format!("{{\"n\":{number},\"who\":\"Bob\"}}")).unwrap();
        let own = format!("{number}{}!Bob", number + 1);
        let shows = |data: &Data, text: &str| template.render(data, &partials, 32).unwrap().text == text;
        (0..500).all(|_| shows(&data, "34!Ada") && shows(&mine, &own))
    };
    thread::scope(|threads| {
        let all: Vec<_> = (0..8).map(|number| threads.spawn(move || run(number))).collect();
        assert!(all.into_iter().all(|thread| thread.join().unwrap()));
    });
    // what was shared is changed again when the pages are rendered, and moves
    partials.insert("end", template)?;
    let page = language.parse("{% render 'end', n: 1, who: 'x' %}")?.render(&data, &partials, 1)?;
    assert_eq!((page.text.as_str(), page.fault.map(|fault| fault.kind())), ("1", Some(Kind::TooDeep)));
    Ok(())
}

#[test]
fn paths_and_what_is_missing() -> Result<(), LiquidError> {
    let language = Language::new()?;
    let mut partials = Partials::new()?;
    partials.insert("line", language.parse("{{ line.count }} of {{ line.tea }};")?)?;
    let template = language.parse("{{ a.b }}{% if c %}c{% endif %}{% for line in lines %}{% render 'line', line: line %}{% endfor %}")?;
    let paths = template.paths(&partials)?;
    let wanted = ["a.b", "c?", "lines[].count", "lines[].tea"];
    assert_eq!(paths.texts(), wanted);
    assert_eq!(format!("{paths:?}"), format!("{wanted:?}"));
    let data = Data::from_json(r#"{"lines": [{"count": 2}, {"tea": "Assam"}]}"#)?;
    assert_eq!(template.render(&data, &partials, 32)?.into_text().unwrap_err().kind(), Kind::UnknownVariable);
    let lenient = |data: &Data| template.render_within(data, &partials, 32, Limits::default().missing_is_nil())?.into_text();
    assert_eq!(lenient(&data)?, "2 of ; of Assam;");
    assert_eq!(lenient(&Data::from_json(r#"{"a": null, "lines": []}"#)?)?, "");
    Ok(())
}

#[test]
fn partials_of_a_folder() -> Result<(), Box<dyn Error>> {
    let room = std::env::temp_dir().join(format!("bikleinu-{}", std::process::id()));
    std::fs::create_dir_all(room.join("parts"))?;
    let files = [("a", "1"), ("a.liquid", "2"), ("b.html.liquid", "3"), ("parts/line.liquid", "{{ x }}"), (".hidden", "{% no"), ("c.d", "4")];
    for (path, source) in files {
        std::fs::write(room.join(path), source)?;
    }
    let language = Language::new()?;
    let partials = Partials::from_folder(&room, &language)?;
    let page = language.parse("{% include 'a' %}{% include 'a.liquid' %}{% include 'b.html' %}{% render 'parts/line', x: 7 %}{% render 'c' %}")?;
    assert_eq!(page.render(&Data::none(), &partials, 32)?.into_text()?, "12374");
    assert_eq!(partials.left_out(), <[String; 0]>::default());
    std::os::unix::fs::symlink("nowhere", room.join("parts/away"))?;
    std::os::unix::fs::symlink("/dev/null", room.join("out"))?;
    std::fs::write(room.join("icon"), b"\0\xff")?;
    let lines = [("icon", "is no text: it has a byte 0"), ("out", "is a link that leads out of the folder"), ("parts/away", "is a link that leads nowhere")];
    let lines = lines.map(|(path, why)| format!("left out: {} {why}", room.join(path).display()));
    assert_eq!(Partials::from_folder(&room, &language)?.left_out(), lines);
    std::fs::write(room.join("c.d"), "\n{{ x | pope }}")?;
    let fault = Partials::from_folder(&room, &language).unwrap_err().to_string();
    assert!(fault.starts_with("c: UnknownFilter: line 2, column 8: "), "{fault}");
    std::fs::remove_dir_all(&room)?;
    assert!(Partials::from_folder(&room, &language).is_err());
    Ok(())
}

#[test]
fn data_are_read_for_a_template() -> Result<(), LiquidError> {
    let (language, mut partials) = (Language::new()?, Partials::new()?);
    partials.insert("line", language.parse("{{ line.tea }};")?)?;
    let template = language.parse("{% for line in lines %}{% render 'line', line: line %}{% endfor %}")?;
    let paths = template.paths(&partials)?;
    let json = r#"{"lines": [{"tea": "green", "of": "Assam"}, {"tea": "black"}], "n": 7}"#;
    let data = Data::from_json_for(json, &paths)?;
    assert_eq!(template.render(&data, &partials, 32)?.into_text()?, "green;black;");
    let other = language.parse("{{ n }}")?;
    assert_eq!(other.render_text(&data).unwrap_err().kind(), Kind::OtherPaths);
    assert_eq!(other.render_text(&Data::from_json(json)?)?, "7");
    let bad = "{\"lines\": [],\n\"m\": 1.5}";
    assert_eq!(Data::from_json_for(bad, &paths).unwrap_err(), Data::from_json(bad).unwrap_err());
    Ok(())
}
