//! A reader of XML that takes no more than the program writes: elements with
//! attributes in double quotes, text, and four entities.

/// The opening tags of a document, or what is wrong with it.
pub fn tags(text: &str) -> Result<Vec<String>, String> {
    let mut open: Vec<&str> = Vec::new();
    let mut found = Vec::new();
    let mut rest = text;
    while let Some((before, tag)) = rest.split_once('<') {
        is_text(before)?;
        let (tag, after) = tag.split_once('>').ok_or("a tag does not end")?;
        rest = after;
        if let Some(name) = tag.strip_prefix('/') {
            if open.pop() != Some(name) {
                return Err(format!("</{name}> closes nothing"));
            }
            continue;
        }
        if open.is_empty() && !found.is_empty() {
            return Err(String::from("a second root"));
        }
        let content = tag.strip_suffix('/').unwrap_or(tag);
        let name = content.split(' ').next().unwrap_or("");
        attributes(&content[name.len()..])?;
        if content == tag {
            open.push(name);
        }
        found.push(tag.to_owned());
    }
    match (open.is_empty(), rest.trim().is_empty()) {
        (true, true) => Ok(found),
        _ => Err(String::from(
            "something is left open, or stands behind the root",
        )),
    }
}

fn attributes(text: &str) -> Result<(), String> {
    let mut rest = text.trim();
    while !rest.is_empty() {
        let (name, value) = rest
            .split_once("=\"")
            .ok_or_else(|| format!("no value: {rest}"))?;
        let (value, after) = value
            .split_once('"')
            .ok_or_else(|| format!("no end: {rest}"))?;
        is_text(value)?;
        if name.is_empty()
            || !name
                .chars()
                .all(|sign| sign.is_ascii_alphanumeric() || sign == '-')
        {
            return Err(format!("no name: {name}"));
        }
        rest = after.trim_start();
    }
    Ok(())
}

fn is_text(text: &str) -> Result<(), String> {
    let mut parts = text.split('&');
    parts.next();
    for part in parts {
        if !["amp;", "lt;", "gt;", "quot;"]
            .iter()
            .any(|entity| part.starts_with(entity))
        {
            return Err(format!("no entity: &{part}"));
        }
    }
    Ok(())
}

/// How many of the tags are of this class.
pub fn of_class(tags: &[String], class: &str) -> usize {
    let wanted = format!("class=\"{class}\"");
    tags.iter().filter(|tag| tag.contains(&wanted)).count()
}
