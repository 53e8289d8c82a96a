//! Reads the prototypes of include/gauge.h for Rust, so that the header is their only declaration. For build scripts.
//!
//! What stands in the header outside of comments, preprocessor lines, enumerations and functions with a body has to be a prototype
//! that is understood in full. So none is passed over.

/// A call and its parameters as Rust writes them: `saved: *mut u8, saved_length: usize, command: &mut u8`. Every call answers a `u32`.
pub struct Prototype {
    pub name: String,
    pub parameters: String,
}

/// The pointer of a slice of bytes. The length comes after it, a `size_t` of its name.
const POINTERS: [(&str, &str); 2] = [("const uint8_t *", "*const u8"), ("uint8_t *", "*mut u8")];

/// A number, by itself or, as a pointer without a length after it, lent.
const NUMBERS: [(&str, &str); 4] = [("uint8_t", "u8"), ("uint16_t", "u16"), ("uint32_t", "u32"), ("int32_t", "i32")];

/// The prototypes in the header's order, or what is not understood.
pub fn read(header: &str) -> Result<Vec<Prototype>, String> {
    let text = without_preprocessor(&without_comments(header)?);
    let prototypes: Vec<Prototype> = declarations(&text)?.iter().map(|text| prototype(text)).collect::<Result<_, _>>()?;
    if prototypes.is_empty() {
        return Err(String::from("no prototype"));
    }
    Ok(prototypes)
}

fn without_comments(header: &str) -> Result<String, String> {
    let mut parts = header.split("/*");
    let mut text = parts.next().unwrap_or_default().to_string();
    for part in parts {
        let (_, after) = part.split_once("*/").ok_or("a comment does not end")?;
        text.push(' ');
        text += after;
    }
    Ok(text)
}

/// Leaves out the lines for the preprocessor and those that only C++ sees.
fn without_preprocessor(text: &str) -> String {
    let mut kept = String::new();
    let mut only_cpp = false;
    for line in text.lines() {
        match line.trim() {
            "#ifdef __cplusplus" => only_cpp = true,
            "#endif" => only_cpp = false,
            line if only_cpp || line.starts_with('#') => {}
            line => {
                kept.push(' ');
                kept += line;
            }
        }
    }
    kept
}

/// What ends in a semicolon, each with single spaces. An enumeration or a function with a body is left out.
fn declarations(text: &str) -> Result<Vec<String>, String> {
    let mut ended = Vec::new();
    let mut current = String::new();
    let mut depth = 0;
    for character in text.chars() {
        match character {
            '{' if depth == 0 && !has_body(&current) => return Err(format!("`{}` is not understood", spaced(&current))),
            '{' => depth += 1,
            '}' if depth == 0 => return Err(String::from("a brace is closed that was not opened")),
            '}' => {
                depth -= 1;
                current.clear();
            }
            _ if depth > 0 => {}
            ';' => ended.push(spaced(&std::mem::take(&mut current))),
            _ => current.push(character),
        }
    }
    if depth > 0 || !spaced(&current).is_empty() {
        return Err(String::from("the last declaration does not end"));
    }
    ended.retain(|declaration| !declaration.is_empty());
    Ok(ended)
}

fn has_body(text: &str) -> bool {
    let text = spaced(text);
    text.starts_with("enum ") || text.starts_with("static inline ")
}

fn spaced(text: &str) -> String {
    text.split_whitespace().collect::<Vec<_>>().join(" ")
}

fn prototype(declaration: &str) -> Result<Prototype, String> {
    let (name, list) = parts(declaration).ok_or_else(|| format!("`{declaration}` is not understood"))?;
    let mut texts = list.split(',').map(str::trim).peekable();
    let mut parameters = Vec::new();
    while let Some(text) = texts.next() {
        let slice = texts.peek().and_then(|next| slice(text, next));
        if slice.is_some() {
            texts.next();
        }
        let parameter = slice.or_else(|| number(text));
        parameters.push(parameter.ok_or_else(|| format!("parameter `{text}` of {name} is not understood"))?);
    }
    Ok(Prototype { name: name.to_string(), parameters: parameters.join(", ") })
}

/// The name and the list of parameters of `uint32_t gauge_NAME(LIST)`.
fn parts(declaration: &str) -> Option<(&str, &str)> {
    let (name, rest) = declaration.strip_prefix("uint32_t ")?.split_once('(')?;
    let list = rest.strip_suffix(')')?;
    (name.starts_with("gauge_") && name.chars().all(is_of_a_name)).then_some((name, list))
}

/// A slice of bytes, which is two parameters: `uint8_t *reply`, `size_t reply_length`.
fn slice(text: &str, next: &str) -> Option<String> {
    let (type_in_c, name) = type_and_name(text)?;
    let pointer = in_rust(&POINTERS, type_in_c)?;
    (next == format!("size_t {name}_length")).then(|| format!("{name}: {pointer}, {name}_length: usize"))
}

/// A number, or a lent one: `uint8_t *command`.
fn number(text: &str) -> Option<String> {
    let (type_in_c, name) = type_and_name(text)?;
    match type_in_c.strip_suffix(" *") {
        Some(of_number) => in_rust(&NUMBERS, of_number).map(|number| format!("{name}: &mut {number}")),
        None => in_rust(&NUMBERS, type_in_c).map(|number| format!("{name}: {number}")),
    }
}

fn type_and_name(text: &str) -> Option<(&str, &str)> {
    let before = text.rfind(|character| !is_of_a_name(character))? + 1;
    let (type_in_c, name) = text.split_at(before);
    (!name.is_empty()).then_some((type_in_c.trim(), name))
}

fn in_rust(types: &[(&str, &'static str)], type_in_c: &str) -> Option<&'static str> {
    types.iter().find(|(in_c, _)| *in_c == type_in_c).map(|&(_, in_rust)| in_rust)
}

fn is_of_a_name(character: char) -> bool {
    character.is_ascii_alphanumeric() || character == '_'
}
