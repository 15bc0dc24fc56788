//! Adds up the stack that an archive's functions take, from objdump's and nm's output, and holds the archive to what the docks
//! have: frames of at most 1,024 bytes in all, no recursion, no static data, nothing from outside but memset, memcpy and memcmp.
//! Words: the files with what `objdump -dr --no-show-raw-insn`, `objdump -h` and `nm -u` print.

use std::collections::BTreeMap;

const MOST: u64 = 1_024;
const RETURN_ADDRESS: u64 = 8;

#[derive(Default)]
struct Function {
    pushes: u64,
    adjustments: u64,
    /// How far below the stack pointer it writes without moving it (the red zone).
    below: u64,
    calls: Vec<String>,
}

impl Function {
    fn frame(&self) -> u64 {
        RETURN_ADDRESS + 8 * self.pushes + self.adjustments + self.below
    }
}

/// The number of an operand such as $0x28 or $0xffffffffffffff80.
fn immediate(operand: &str) -> Option<i64> {
    let digits = operand.strip_prefix("$0x")?;
    u64::from_str_radix(digits, 16).ok().map(|n| n as i64)
}

/// The displacement d of the operand -0xd(%rsp), which may be one of several.
fn below_pointer(operands: &str) -> Option<u64> {
    let before = operands.split("(%rsp").next().filter(|b| b.len() < operands.len())?;
    let start = before.rfind("-0x")?;
    u64::from_str_radix(&before[start + 3..], 16).ok()
}

fn read_code(code: &str) -> Result<BTreeMap<String, Function>, String> {
    let mut functions: BTreeMap<String, Function> = BTreeMap::new();
    let mut name = String::new();
    // whether the last instruction was a call or a jump, to which a relocation on the next line belongs
    let mut transfers = false;
    for line in code.lines() {
        if let Some(head) = line.strip_suffix(">:") {
            name = head.split('<').nth(1).ok_or("a function without a name")?.to_string();
            functions.insert(name.clone(), Function::default());
            continue;
        }
        let Some(function) = functions.get_mut(&name) else { continue };
        if let Some((_, symbol)) = line.split_once("R_X86_64_") {
            let symbol = symbol.split_whitespace().nth(1).ok_or("a relocation without a symbol")?;
            let symbol = symbol.trim_start_matches(".text.").split(['-', '+']).next().unwrap();
            if transfers {
                function.calls.push(symbol.to_string());
            }
            continue;
        }
        let Some((_, instruction)) = line.split_once(":\t") else { continue };
        let (verb, operands) = instruction.split_once(char::is_whitespace).unwrap_or((instruction, ""));
        let operands = operands.trim();
        let target = operands.rsplit(',').next().unwrap_or("");
        transfers = verb.starts_with("call") || verb.starts_with('j');
        if verb.starts_with("call") && operands.starts_with('*') {
            return Err(format!("{name} calls through a pointer: {instruction}"));
        }
        // a call that needs no relocation stays in its section: to another function, or to itself
        if let Some((_, symbol)) = operands.split_once('<').filter(|_| transfers) {
            let symbol = symbol.trim_end_matches('>');
            let to_start = !symbol.contains('+');
            if to_start && (verb.starts_with("call") || symbol != name) {
                function.calls.push(symbol.to_string());
            }
        }
        if verb.starts_with("push") {
            function.pushes += 1;
        } else if target == "%rsp" && !verb.starts_with("pop") && !verb.starts_with("cmp") && !verb.starts_with("test") {
            let source = operands.split(',').next().unwrap_or("");
            match (verb.trim_end_matches('q'), immediate(source)) {
                ("sub", Some(n)) if n > 0 => function.adjustments += n as u64,
                ("sub", Some(_)) => {}
                ("add", Some(n)) if n < 0 => function.adjustments += n.unsigned_abs(),
                ("add", Some(_)) => {}
                // rounding down takes up to one less than the alignment
                ("and", Some(n)) if n < 0 => function.adjustments += n.unsigned_abs() - 1,
                ("lea", None) if operands.contains("(%rsp),%rsp") => {
                    function.adjustments += below_pointer(operands).unwrap_or(0)
                }
                // back to where the frame began
                ("lea" | "mov", None) if operands.contains("%rbp") => {}
                _ => return Err(format!("{name} moves the stack pointer by what cannot be told: {instruction}")),
            }
        } else if let Some(n) = below_pointer(operands) {
            function.below = function.below.max(n);
        }
    }
    Ok(functions)
}

/// The most stack from this function down, along calls; an error if it comes to itself again.
fn deepest(functions: &BTreeMap<String, Function>, name: &str, above: &mut Vec<String>) -> Result<u64, String> {
    if above.iter().any(|n| n == name) {
        return Err(format!("recursion: {} -> {name}", above.join(" -> ")));
    }
    let Some(function) = functions.get(name) else { return Ok(RETURN_ADDRESS) };
    above.push(name.to_string());
    let mut most = 0;
    for callee in &function.calls {
        most = most.max(deepest(functions, callee, above)?);
    }
    above.pop();
    Ok(function.frame() + most)
}

/// What is wrong with the sections; those of constants are printed.
fn read_sections(sections: &str) -> Vec<String> {
    let mut wrong = Vec::new();
    let lines: Vec<&str> = sections.lines().collect();
    for pair in lines.windows(2) {
        let words: Vec<&str> = pair[0].split_whitespace().collect();
        let is_section = words.len() == 7 && words[0].parse::<u32>().is_ok();
        let size = if is_section { u64::from_str_radix(words[2], 16).unwrap_or(0) } else { 0 };
        let has = |flag: &str| pair[1].split([',', ' ']).any(|f| f == flag);
        if size == 0 || !has("ALLOC") || has("CODE") {
            continue;
        }
        if !has("READONLY") {
            wrong.push(format!("static data: section {} of {size} bytes", words[1]));
        } else if !words[1].starts_with(".eh_frame") {
            println!("  constants: {} of {size} bytes", words[1]);
        }
    }
    wrong
}

fn main() {
    let files: Vec<String> = std::env::args().skip(1).map(|path| std::fs::read_to_string(path).expect("a file")).collect();
    let [code, sections, undefined] = &files[..] else { panic!("three files") };
    let mut wrong = Vec::new();

    let functions = read_code(code).unwrap_or_else(|what| {
        wrong.push(what);
        BTreeMap::new()
    });
    let sum: u64 = functions.values().map(Function::frame).sum();
    for (name, f) in &functions {
        let (pushes, adjustments, below, frame) = (8 * f.pushes, f.adjustments, f.below, f.frame());
        println!("  {frame:5} bytes: {name} (return address 8, pushes {pushes}, adjustments {adjustments}, red zone {below})");
    }
    let mut path = 0;
    for name in functions.keys() {
        match deepest(&functions, name, &mut Vec::new()) {
            Ok(n) => path = path.max(n),
            Err(what) => wrong.push(what),
        }
    }
    wrong.extend(read_sections(sections));
    for symbol in undefined.lines().filter_map(|line| line.trim().strip_prefix("U ")) {
        if ["memset", "memcpy", "memcmp"].contains(&symbol) {
            println!("  from outside: {symbol}");
        } else {
            wrong.push(format!("from outside: {symbol}"));
        }
    }
    if functions.is_empty() {
        wrong.push("no functions".into());
    }
    if sum > MOST {
        wrong.push(format!("{sum} bytes are over {MOST}"));
    }
    println!("frames in all: {sum} bytes of {} functions, at most {MOST}; along the deepest calls {path}", functions.len());
    for what in &wrong {
        println!("WRONG: {what}");
    }
    std::process::exit(i32::from(!wrong.is_empty()));
}
