//! Reads XML and takes nothing that isn't well-formed. What no picture has, such as comments
//! and declarations of types, it doesn't take either.

use std::collections::BTreeSet;

#[derive(Debug)]
pub struct Element {
    pub name: String,
    pub attributes: Vec<(String, String)>,
    pub children: Vec<Node>,
}

#[derive(Debug)]
pub enum Node {
    Element(Element),
    Text(String),
}

/// An element whose ids are unique and lead somewhere.
pub fn checked(text: &str) -> Element {
    let root = read(text).unwrap_or_else(|why| panic!("{why} in {text}"));
    references(&root).unwrap_or_else(|why| panic!("{why} in {text}"));
    root
}

/// The one element of a text, or what is wrong with it.
pub fn read(text: &str) -> Result<Element, String> {
    if let Some(sign) = text.chars().find(is_forbidden) {
        return Err(format!("forbidden character {sign:?}"));
    }
    let prolog = "<?xml version=\"1.0\" encoding=\"UTF-8\"?>\n";
    let text = text.strip_prefix(prolog).unwrap_or(text);
    let mut reader = Reader { rest: text };
    let element = reader.element()?;
    match reader.rest.trim().is_empty() {
        true => Ok(element),
        false => Err(format!("'{}' behind the end", reader.rest)),
    }
}

/// The characters that XML 1.0 hasn't.
fn is_forbidden(sign: &char) -> bool {
    let control = *sign < ' ' && !['\t', '\n', '\r'].contains(sign);
    control || ['\u{FFFE}', '\u{FFFF}'].contains(sign)
}

/// Every id stands once, and what is referred to is there.
pub fn references(root: &Element) -> Result<(), String> {
    let mut ids = BTreeSet::new();
    for id in root.all().filter_map(|element| element.get("id")) {
        if !ids.insert(id) {
            return Err(format!("the id {id} stands twice"));
        }
    }
    for element in root.all() {
        let labels = ["aria-labelledby", "aria-describedby"].map(|name| element.get(name));
        let labels = labels.into_iter().flatten().flat_map(str::split_whitespace);
        let link = element.get("href");
        let link = link.map(|link| link.strip_prefix('#').unwrap_or(link));
        if let Some(id) = labels.chain(link).find(|id| !ids.contains(id)) {
            return Err(format!("there is no id {id}"));
        }
    }
    Ok(())
}

struct Reader<'a> {
    rest: &'a str,
}

impl Reader<'_> {
    fn take(&mut self, wanted: &str) -> Result<(), String> {
        match self.rest.strip_prefix(wanted) {
            Some(rest) => {
                self.rest = rest;
                Ok(())
            }
            None => {
                let there: String = self.rest.chars().take(20).collect();
                Err(format!("'{there}' in place of '{wanted}'"))
            }
        }
    }

    /// As much as has only such characters.
    fn run(&mut self, such: impl Fn(char) -> bool) -> String {
        let end = self.rest.find(|sign| !such(sign));
        let (run, rest) = self.rest.split_at(end.unwrap_or(self.rest.len()));
        self.rest = rest;
        run.to_string()
    }

    fn name(&mut self) -> Result<String, String> {
        let name = self.run(|sign| sign.is_ascii_alphanumeric() || "-_:".contains(sign));
        match name.starts_with(|first: char| first.is_ascii_alphabetic()) {
            true => Ok(name),
            false => Err(format!("'{name}' is no name")),
        }
    }

    fn element(&mut self) -> Result<Element, String> {
        self.take("<")?;
        let name = self.name()?;
        let mut element = Element {
            attributes: self.attributes()?,
            children: Vec::new(),
            name,
        };
        if self.take("/>").is_ok() {
            return Ok(element);
        }
        self.take(">")?;
        while self.take("</").is_err() {
            element.children.push(self.node()?);
        }
        let end = self.name()?;
        if end != element.name {
            return Err(format!("'{}' ends as '{end}'", element.name));
        }
        self.run(|sign| sign.is_ascii_whitespace());
        self.take(">")?;
        Ok(element)
    }

    fn node(&mut self) -> Result<Node, String> {
        if self.rest.starts_with('<') {
            return self.element().map(Node::Element);
        }
        let text = self.run(|sign| sign != '<');
        if self.rest.is_empty() {
            return Err("an element has no end".to_string());
        }
        if text.contains("]]>") {
            return Err("]]> in a text".to_string());
        }
        resolved(&text).map(Node::Text)
    }

    fn attributes(&mut self) -> Result<Vec<(String, String)>, String> {
        let mut attributes: Vec<(String, String)> = Vec::new();
        loop {
            let blanks = self.run(|sign| sign.is_ascii_whitespace());
            if self.rest.starts_with(['/', '>']) {
                return Ok(attributes);
            }
            if blanks.is_empty() {
                return Err("no blank before an attribute".to_string());
            }
            let name = self.name()?;
            if attributes.iter().any(|(other, _)| *other == name) {
                return Err(format!("the attribute {name} twice"));
            }
            self.take("=")?;
            let value = self.quoted()?;
            attributes.push((name, value));
        }
    }

    fn quoted(&mut self) -> Result<String, String> {
        let quote = match self.take("'") {
            Ok(()) => "'",
            Err(_) => self.take("\"").map(|()| "\"")?,
        };
        let value = self.run(|sign| !quote.contains(sign) && sign != '<');
        self.take(quote)?;
        resolved(&value)
    }
}

/// A text with what its entities stand for.
fn resolved(text: &str) -> Result<String, String> {
    let mut pieces = text.split('&');
    let mut resolved = pieces.next().unwrap_or_default().to_string();
    for piece in pieces {
        let (entity, rest) = piece.split_once(';').ok_or("& without ;")?;
        let sign = match entity {
            "lt" => '<',
            "gt" => '>',
            "amp" => '&',
            "quot" => '"',
            "apos" => '\'',
            _ => {
                let number = entity
                    .strip_prefix('#')
                    .and_then(|number| number.parse().ok());
                let sign = number.and_then(char::from_u32);
                let sign = sign.filter(|sign| !is_forbidden(sign));
                sign.ok_or_else(|| format!("the entity '{entity}'"))?
            }
        };
        resolved.push(sign);
        resolved += rest;
    }
    Ok(resolved)
}

impl Element {
    /// The value of an attribute.
    pub fn get(&self, name: &str) -> Option<&str> {
        let mut attributes = self.attributes.iter();
        let found = attributes.find(|(other, _)| other == name);
        found.map(|(_, value)| value.as_str())
    }

    /// The number that an attribute has.
    pub fn number<T: std::str::FromStr>(&self, name: &str) -> T {
        let value = self
            .get(name)
            .unwrap_or_else(|| panic!("no {name}: {self:?}"));
        let number = value.parse().ok();
        number.unwrap_or_else(|| panic!("{name}='{value}' is no number"))
    }

    /// The element and all within it, in order.
    pub fn all(&self) -> Box<dyn Iterator<Item = &Element> + '_> {
        let within = self.elements().flat_map(Element::all);
        Box::new(std::iter::once(self).chain(within))
    }

    /// The elements right within it.
    pub fn elements(&self) -> impl Iterator<Item = &Element> {
        self.children.iter().filter_map(|child| match child {
            Node::Element(element) => Some(element),
            Node::Text(_) => None,
        })
    }

    /// Those of a class, in order.
    pub fn of_class(&self, class: &str) -> Vec<&Element> {
        let all = self.all();
        all.filter(|element| element.get("class") == Some(class))
            .collect()
    }

    /// Those of a name, in order.
    pub fn named(&self, name: &str) -> Vec<&Element> {
        self.all().filter(|element| element.name == name).collect()
    }

    /// Its own text, without that of elements within it.
    pub fn text(&self) -> String {
        let texts = self.children.iter().map(|child| match child {
            Node::Text(text) => text.as_str(),
            Node::Element(_) => "",
        });
        texts.collect()
    }
}
