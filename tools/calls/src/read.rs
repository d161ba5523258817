//! Reads calls.txt.
use crate::block::{Block, blocks};
use crate::table::{Call, Constant, Constants, Group, Kind, Number, Parameter, Refusal, Table, Version};
use crate::text::unknown;

/// The parts that many calls have in common: a name and its lines.
type Common = Vec<(String, Vec<String>)>;

/// The table that a text is, or what is wrong with it, and in which line.
pub fn table(text: &str) -> Result<Table, String> {
    let mut table = Table::default();
    let mut common = Common::new();
    for block in blocks(text)? {
        entered(&mut table, &mut common, &block).map_err(|why| format!("calls.txt, line {}: {why}", block.line))?;
    }
    complete(&table).map_err(|why| format!("calls.txt: {why}"))?;
    Ok(table)
}

/// Enters a block into the table.
fn entered(table: &mut Table, common: &mut Common, block: &Block) -> Result<(), String> {
    match block.word.as_str() {
        "version" => table.version = version(&block.rest).ok_or("this is no version")?,
        "refusal" => table.refusals.push(refusal(block)?),
        "constants" => table.constants.push(Constants { title: block.rest.clone(), list: Vec::new() }),
        "constant" => {
            let constant = constant(&block.rest, &table.values())?;
            table.constants.last_mut().ok_or("a line 'constants ..' is missing over it")?.list.push(constant);
        }
        "parameter" => table.usual.push(usual(&block.rest)?),
        "common" => common.push((block.rest.clone(), block.lines.clone())),
        "group" => {
            let (title, text) = (block.rest.clone(), block.lines.join(" "));
            table.groups.push(Group { title, text, calls: Vec::new() });
        }
        "call" => {
            let call = call(block, &table.usual, common)?;
            table.groups.last_mut().ok_or("a line 'group ..' is missing over it")?.calls.push(call);
        }
        word => return Err(format!("nothing begins with '{word}'")),
    }
    Ok(())
}

/// What must hold of the table as a whole.
fn complete(table: &Table) -> Result<(), String> {
    for (number, refusal) in table.refusals.iter().enumerate() {
        if usize::from(refusal.number) != number {
            return Err(format!("refusal {number} is missing"));
        }
    }
    let mut names: Vec<_> = table.calls().map(|call| &call.name).collect();
    names.sort();
    if let Some(pair) = names.windows(2).find(|pair| pair[0] == pair[1]) {
        return Err(format!("{} stands there twice", pair[0]));
    }
    if let Some(name) = texts(table).find_map(|text| unknown(text, table)) {
        return Err(format!("a text refers to {name}, and there is no such call, constant or type"));
    }
    for call in table.calls() {
        if let Some((number, _)) = call.refusals.iter().find(|(number, _)| usize::from(*number) >= table.refusals.len())
        {
            return Err(format!("{} is refused with {number}, which no line 'refusal' explains", call.name));
        }
    }
    Ok(())
}

/// All texts that may refer to something.
fn texts(table: &Table) -> impl Iterator<Item = &String> {
    let conditions = table.refusals.iter().map(|refusal| &refusal.condition);
    let groups = table.groups.iter().map(|group| &group.text);
    let calls = table.calls().flat_map(|call| {
        let meanings = call.parameters.iter().map(|parameter| &parameter.meaning);
        let refusals = call.refusals.iter().map(|(_, condition)| condition);
        [&call.summary].into_iter().chain(&call.details).chain(meanings).chain(refusals)
    });
    conditions.chain(groups).chain(calls)
}

fn version(text: &str) -> Option<Version> {
    let mut numbers = text.split('.').map(|part| part.parse().ok().filter(|number| *number < 100));
    let version = Version { major: numbers.next()??, minor: numbers.next()??, patch: numbers.next()?? };
    numbers.next().is_none().then_some(version)
}

fn refusal(block: &Block) -> Result<Refusal, String> {
    let form = "a refusal is written 'refusal NUMBER NAME, Name: condition', and what people read under it";
    let (head, condition) = block.rest.split_once(": ").ok_or(form)?;
    let (number, names) = head.split_once(' ').ok_or(form)?;
    let (name, variant) = names.split_once(", ").unwrap_or((names, ""));
    let [sentence] = block.lines.as_slice() else { return Err(form.to_string()) };
    Ok(Refusal {
        number: number.parse().map_err(|_| form)?,
        name: name.to_string(),
        variant: variant.to_string(),
        condition: condition.to_string(),
        sentence: sentence.clone(),
    })
}

fn constant(text: &str, known: &[(&str, u64)]) -> Result<Constant, String> {
    let form = "a constant is written 'constant NAME VALUE: what it is'";
    let (head, meaning) = text.split_once(": ").ok_or(form)?;
    let (name, value) = head.split_once(' ').ok_or(form)?;
    let value =
        sum(value, known).ok_or("a value is a sum of products, 'N + N x NAME', of numbers and constants above it")?;
    Ok(Constant { name: name.to_string(), value, meaning: meaning.to_string() })
}

fn sum(text: &str, known: &[(&str, u64)]) -> Option<u64> {
    let factor = |text: &str| {
        let named = known.iter().find(|(name, _)| *name == text).map(|(_, value)| *value);
        named.or_else(|| text.parse().ok())
    };
    text.split(" + ").map(|product| product.split(" x ").map(factor).product::<Option<u64>>()).sum()
}

fn usual(text: &str) -> Result<Parameter, String> {
    let form = "a parameter is written 'parameter NAME: TYPE: meaning'";
    let (name, rest) = text.split_once(": ").ok_or(form)?;
    let (kind, meaning) = rest.split_once(": ").ok_or(form)?;
    let kind = Kind::named(kind).ok_or_else(|| format!("there is no type '{kind}'"))?;
    Ok(Parameter { name: name.to_string(), kind, meaning: meaning.to_string(), own: false })
}

fn call(block: &Block, usual: &[Parameter], common: &Common) -> Result<Call, String> {
    let form = "a call is written 'call NAME(PARAMETERS)' or 'call NAME(PARAMETERS) -> TYPE'";
    let (name, rest) = block.rest.split_once('(').ok_or(form)?;
    let (list, arrow) = rest.split_once(')').ok_or(form)?;
    let returns = match arrow.strip_prefix(" -> ") {
        Some(number) => Some(Number::named(number).ok_or_else(|| format!("there is no type '{number}'"))?),
        None if arrow.is_empty() => None,
        None => return Err(form.to_string()),
    };
    let written = list.split(", ").filter(|written| !written.is_empty());
    let parameters = written.map(|written| parameter(written, usual)).collect::<Result<_, _>>()?;
    let mut call = Call { name: name.to_string(), parameters, returns, ..Call::default() };
    for line in &block.lines {
        said(&mut call, line, common)?;
    }
    match call.parameters.iter().find(|parameter| parameter.meaning.is_empty()) {
        Some(parameter) => Err(format!("it is not said what {} means", parameter.name)),
        None if call.summary.is_empty() => Err("it is not said what the call gives".to_string()),
        None if call.returns.is_none() == call.refusals.is_empty() => {
            Err("a call is refused for something, or it returns a type".to_string())
        }
        None => Ok(call),
    }
}

/// A parameter as it stands in a call: a usual one by its name alone, another with its type.
fn parameter(written: &str, usual: &[Parameter]) -> Result<Parameter, String> {
    let Some((name, kind)) = written.split_once(": ") else {
        let known = usual.iter().find(|parameter| parameter.name == written);
        return known.cloned().ok_or_else(|| format!("{written} has no type and is no usual parameter"));
    };
    let kind = Kind::named(kind).ok_or_else(|| format!("there is no type '{kind}'"))?;
    Ok(Parameter { name: name.to_string(), kind, meaning: String::new(), own: true })
}

/// Enters a line that stands under a call.
fn said(call: &mut Call, line: &str, common: &Common) -> Result<(), String> {
    if let Some(name) = line.strip_prefix("as ") {
        let part = common.iter().find(|(known, _)| known == name);
        let (_, lines) = part.ok_or_else(|| format!("there is no common part '{name}'"))?;
        return lines.iter().try_for_each(|line| said(call, line, &Common::new()));
    }
    if let Some((word, rest)) = line.split_once(": ") {
        if let Ok(number) = word.parse() {
            call.refusals.push((number, rest.to_string()));
            return Ok(());
        }
        if let Some(parameter) = call.parameters.iter_mut().find(|parameter| parameter.name == word) {
            parameter.meaning = rest.to_string();
            parameter.own = true;
            return Ok(());
        }
    }
    match call.summary.is_empty() {
        true => call.summary = line.to_string(),
        false => call.details.push(line.to_string()),
    }
    Ok(())
}
