//! Renders the templates of `bench/templates` by Tera, as often as it is told. `engine FILE`: the file has the cases as
//! JSON. Lines on standard input are `text CASE`, answered by the rendered text as JSON, and `run CASE COUNT` and
//! `alone CASE COUNT`, answered by the length of so many rendered texts: `alone` reads neither query nor body, but renders
//! over data that were read before. Templates are compiled before the first line is read.
use serde_json::{Map, Value};
use std::collections::HashMap;
use std::error::Error;
use std::io::{BufRead, Write};
use tera::{Context, Tera};

type Arguments = HashMap<String, Value>;

fn text(value: &Value) -> tera::Result<&str> {
    value.as_str().ok_or_else(|| "no text".into())
}

fn upper(value: &Value, _: &Arguments) -> tera::Result<Value> {
    Ok(Value::String(text(value)?.to_ascii_uppercase()))
}

fn lower(value: &Value, _: &Arguments) -> tera::Result<Value> {
    Ok(Value::String(text(value)?.to_ascii_lowercase()))
}

fn trim(value: &Value, _: &Arguments) -> tera::Result<Value> {
    let is_blank = |c: char| c.is_ascii_whitespace();
    Ok(Value::String(text(value)?.trim_matches(is_blank).to_owned()))
}

fn object(name: &str, value: Value) -> Value {
    Value::Object(Map::from_iter([(name.to_owned(), value)]))
}

/// What a template sees: the value is moved there, so that nothing of it is copied.
fn context(request: Value) -> tera::Result<Context> {
    Context::from_value(object("request", request))
}

/// The names of a query, each with its value, or with all of them in a list.
fn values_of(query: &str) -> Value {
    let mut values: Map<String, Value> = Map::new();
    for (name, value) in form_urlencoded::parse(query.as_bytes()) {
        let value = Value::String(value.into_owned());
        match values.get_mut(name.as_ref()) {
            None => {
                values.insert(name.into_owned(), value);
            }
            Some(Value::Array(found)) => found.push(value),
            Some(found) => *found = Value::Array(vec![found.take(), value]),
        }
    }
    Value::Object(values)
}

/// What of a request a template may look at: the text of its body, if it has one, or else the text of its query, and
/// fields that are at hand.
enum Request {
    Body(String),
    Head { fields: Map<String, Value>, query: String },
}

impl Request {
    fn of(case: &Value) -> Request {
        match case["body"].as_str() {
            Some(text) => Request::Body(text.to_owned()),
            None => Request::Head {
                fields: case["request"].as_object().cloned().unwrap_or_default(),
                query: case["query"].as_str().unwrap_or("").to_owned(),
            },
        }
    }

    /// What a template sees of it; the texts of query and body are read.
    fn read(&self) -> Result<Context, Box<dyn Error>> {
        let request = match self {
            Request::Body(text) => object("body", serde_json::from_str(text)?),
            Request::Head { fields, query } => {
                let mut fields = fields.clone();
                fields.insert("query".to_owned(), values_of(query));
                Value::Object(fields)
            }
        };
        Ok(context(request)?)
    }
}

/// A template's name, and what it is rendered with: the request, and its data as they were read before.
struct Case {
    name: String,
    request: Request,
    context: Context,
}

impl Case {
    fn of(name: &str, case: &Value) -> Result<Case, Box<dyn Error>> {
        let request = Request::of(case);
        Ok(Case {
            name: name.to_owned(),
            context: request.read()?,
            request,
        })
    }

    /// One rendering; it begins with the texts of the query and of the body, if there is one.
    fn render(&self, tera: &Tera) -> Result<String, Box<dyn Error>> {
        Ok(tera.render(&self.name, &self.request.read()?)?)
    }

    /// One rendering over data that were read before.
    fn render_alone(&self, tera: &Tera) -> Result<String, Box<dyn Error>> {
        Ok(tera.render(&self.name, &self.context)?)
    }
}

fn main() -> Result<(), Box<dyn Error>> {
    let path = std::env::args().nth(1).ok_or("engine FILE")?;
    let listed: Value = serde_json::from_str(&std::fs::read_to_string(path)?)?;
    let mut tera = Tera::default();
    tera.autoescape_on(vec![]);
    tera.register_filter("upper", upper);
    tera.register_filter("lower", lower);
    tera.register_filter("trim", trim);
    let mut cases = Vec::new();
    for (name, case) in listed.as_object().ok_or("no object")? {
        tera.add_raw_template(name, case["tera"].as_str().ok_or("no template")?)?;
        cases.push(Case::of(name, case)?);
    }
    let mut out = std::io::stdout();
    for line in std::io::stdin().lock().lines() {
        let line = line?;
        let words: Vec<&str> = line.split(' ').collect();
        let case = cases.iter().find(|case| case.name == words[1]).ok_or("no such case")?;
        if words[0] == "text" {
            writeln!(out, "{}", serde_json::to_string(&case.render(&tera)?)?)?;
        } else {
            let mut length = 0;
            for _ in 0..words[2].parse::<u64>()? {
                length += match words[0] {
                    "alone" => case.render_alone(&tera)?.len(),
                    _ => case.render(&tera)?.len(),
                };
            }
            writeln!(out, "{length}")?;
        }
        out.flush()?;
    }
    Ok(())
}
