//! Cases at the bounds of 01 and of the trace memory, a little below and a little past them.

use super::{Case, Random};

/// A number from `middle` - 3 to `middle` + 3; 0 for those below it.
fn near(random: &mut Random, middle: usize) -> usize {
    (middle + random.below(7)).saturating_sub(3)
}

fn case(file: String, lines: Vec<(u64, String)>) -> Case {
    let bytes = |(budget, line): (u64, String)| (budget, line.into_bytes());
    Case { file: file.into_bytes(), lines: lines.into_iter().map(bytes).collect() }
}

/// A file with about 256 faults or about 96 good macros between faults.
pub fn bound_faults(random: &mut Random) -> Vec<u8> {
    let fault = *random.pick(&["'a;", "'a**'='b';", "''='b';", "#(v);", "'a'='{1}';", "'[]';"]);
    let more = *random.pick(&["'a'='b';", "", "'", "/", "&(s", "';';"]);
    let file = match random.below(3) {
        0 => format!("{}{more}", fault.repeat(near(random, 256))),
        1 => format!("{}{more}", format!("'q'='';{fault}").repeat(near(random, 96))),
        _ => {
            let start = near(random, 507);
            format!("{more}'a'='{}';'c'='d';{more}", "x".repeat(start))
        }
    };
    file.into_bytes()
}

/// One case near one bound.
pub fn bound_case(random: &mut Random) -> Case {
    match random.below(10) {
        0 => macro_bytes(random),
        1 => macros(random),
        2 => line_bytes(random),
        3 => entry_case(random),
        4 => tags(random),
        5 => pointers(random),
        6 => counters(random),
        7 => file_bytes(random),
        8 => trace_bytes(random),
        _ => closures(random),
    }
}

/// A macro of about 512 bytes, its length in one of its parts.
fn macro_bytes(random: &mut Random) -> Case {
    let fill = |text: &str, count: usize| text.repeat(count);
    let file = match random.below(9) {
        0 => format!("'a'='{}';", fill("x", near(random, 505))),
        1 => format!("'{}'='';", fill("a", near(random, 506))),
        2 => format!("'a/{}/'='';", fill("'", near(random, 503))),
        3 => format!("'a'='b'{};", fill("\n", near(random, 504))),
        4 => format!("'a'='{}';", fill(":", near(random, 505))),
        6 => format!("#(v=2){}'a'='#(v)';", fill("\n", near(random, 494))),
        7 => format!("&/{}/(s=2)'a'='b';", fill("x", near(random, 496))),
        8 => format!("{}'a'='b';", fill("&(s:x:)", 68 + random.below(5))),
        _ => format!("'[{}]'='b'", fill("c", near(random, 504))),
    };
    let before = *random.pick(&["", "; ", "'q'='';"]);
    let text = "a".repeat(near(random, 506));
    case(format!("{before}{file}"), vec![(3, text), (3, "a".to_string())])
}

/// About 96 macros, and more of them by control lines.
fn macros(random: &mut Random) -> Case {
    let count = near(random, 95);
    let file = match random.below(3) {
        0 => format!("{}{}", "'q'='';".repeat(count), random.pick(&["& #", "#(v=1)", "&/x/(s"])),
        1 => "#(v=1)'q'='';".repeat(count),
        _ => "'q'='';".repeat(count),
    };
    let added = random.pick(&["$MACRO 'a'='b';", "$MACRO #(v=3)'a'='b';"]).to_string();
    let two = "$MACRO'a'='b';'c'='d';".to_string();
    let budget = near(random, 96) as u64;
    case(file, vec![(9, two), (9, added.clone()), (9, added), (budget, "x".to_string())])
}

/// A line of about 1,054 bytes that grows or not.
fn line_bytes(random: &mut Random) -> Case {
    let files =
        ["'b'<'cc';", "'$'<'x';", "'^'<'#(n+)';", "'{?1*}'<'{1}';", "'{b}'<'{1}{1}'&(1,a);"];
    let file = random.pick(&files).to_string();
    let line = |random: &mut Random| {
        let length = near(random, 1_054);
        let place = random.below(length);
        format!("{}b{}", "a".repeat(place), "a".repeat(length - place - 1))
    };
    let lines = (0..3).map(|_| (5, line(random))).collect();
    case(file, lines)
}

/// A length of about 50 or about 100 bytes, the entries of the old engine and
/// of the new one.
fn entry_length(random: &mut Random) -> usize {
    let bound = *random.pick(&[50, 100]);
    near(random, bound - 1)
}

/// Stored tags and texts of such lengths.
pub fn entry_case(random: &mut Random) -> Case {
    let step = *random.pick(&["a", "+a", "a-"]);
    let text = "x".repeat(entry_length(random));
    let file = format!("'{{a*}}'<'b&(a)'&(1,{step});'c'<'&({step}:{text}:)&(a)';");
    let tag = "a".repeat(entry_length(random));
    let other = "a".repeat(entry_length(random));
    let before = random.pick(&["", "&(c:z:)", "#(v=2)"]).to_string();
    let added = format!("$MACRO {before}'d'<'&(b:{}:)';", "y".repeat(entry_length(random)));
    let lines = [tag, "c".to_string(), other, added, "cd".to_string()];
    case(file, lines.map(|line| (9, line)).to_vec())
}

/// About 99 tags, nested or side by side.
fn tags(random: &mut Random) -> Case {
    let count = near(random, 99);
    let pattern = match random.one_in(2) {
        true => format!("{}a{}", "{".repeat(count), "}".repeat(count)),
        false => format!("{}a", "{}".repeat(count)),
    };
    let n = near(random, 98);
    case(format!("'{pattern}'<'[{{{n}}}]';"), vec![(9, "bab".to_string())])
}

/// A pointer moved about 20 times.
fn pointers(random: &mut Random) -> Case {
    let call = *random.pick(&["&(s+)", "&(+s)", "&(s+:x:)", "&(+s:y:)", "&(1,+s)", "&(1,s+)"]);
    let line = "a".repeat(near(random, 19));
    let file = format!("'{{a}}'<'{call}';'b'<'&(s-)&(-s)';");
    case(file, vec![(9, line), (9, "bb".to_string()), (9, "aaa".to_string())])
}

/// A counter near its ends.
fn counters(random: &mut Random) -> Case {
    let value = *random.pick(&[1, 2, 999_999_990, 999_999_998, 999_999_999]);
    let increment = *random.pick(&[1, 2, 4, 999_999_997, 999_999_998, 999_999_999]);
    let call = *random.pick(&["#(n+)", "#(+n)", "#(n-)", "#(-n)"]);
    let file = format!("'a'<'{call},';'b'<''#(n={value})#(n,{increment});");
    let line = "a".repeat(1 + random.below(6));
    case(file, vec![(9, "b".to_string()), (9, line), (9, "a".to_string())])
}

/// A file of about 32,768 bytes, or one that is so when written.
fn file_bytes(random: &mut Random) -> Case {
    let end = *random.pick(&["", "'a'='b';", "'", "/", "'a'", "''"]);
    let length = near(random, 32_768) - end.len();
    let file = match random.one_in(2) {
        true => format!("{}{end}", "x".repeat(length)),
        false => {
            let most = format!("'a'='{}';", ":".repeat(200)).repeat(80);
            format!("{most}'a'='{}';", "x".repeat(near(random, 120)))
        }
    };
    case(file, vec![(99, "a".to_string())])
}

/// Macros that are longer when written: one of them or the file is then near its
/// bound, or past it. One file in eight has a fault behind them.
pub fn bound_written(random: &mut Random) -> Vec<u8> {
    let colons = |n: usize| format!("'{{a}}'='{}';", ":".repeat(n));
    let few = near(random, 247);
    let line = 2 * few + "'{a}'='';\n".len();
    let short = colons(few);
    let full = short.repeat(32_768 / line);
    let file = match random.below(3) {
        0 => format!("{}{}", short.repeat(random.below(66)), colons(near(random, 252))),
        1 => format!("{full}{}", colons(near(random, 32_768 % line / 2))),
        _ => format!("{}{}", short.repeat(3), colons(near(random, 252)).repeat(2)),
    };
    let end = if random.one_in(8) { "'{b" } else { *random.pick(&["", "'^{{b}}$'='';"]) };
    format!("{file}{end}").into_bytes()
}

/// As many closures as a macro can have, over a long line.
fn closures(random: &mut Random) -> Case {
    let unit = *random.pick(&["a*", "a*-", "?1*-", "[ab]*-", "&(a)*-", "#(n)*-", "{a*-"]);
    let count = 90 + random.below(10);
    let close = if unit.starts_with('{') { "}".repeat(count) } else { String::new() };
    let last = *random.pick(&["b", "$", "", "c$"]);
    let file = format!("'{}{last}{close}'<'-';", unit.repeat(count));
    let line = format!("{}{}", "a".repeat(near(random, 100)), random.pick(&["b", "bb", "", "c"]));
    case(file, vec![(3, line), (3, "1a".repeat(near(random, 300)))])
}

/// Passes whose lines fill the trace memory nearly, exactly or too much: each
/// macro occurs once, and only the last changes the text.
fn trace_bytes(random: &mut Random) -> Case {
    let count = 32 + random.below(30);
    let digits: usize = (1..=count).map(|number| number.to_string().len()).sum();
    let (fixed, each) = (27 * count + digits, 2 * count);
    let length = (65_536 - fixed) / each - random.below(2);
    let more = 65_536 - fixed - each * length;
    let more = if random.one_in(2) { near(random, more.max(3)) } else { more + random.below(2) };
    let file = format!("'$'<'{}';{}", "x".repeat(more.min(500)), "'^'<'';".repeat(count - 1));
    let end = *random.pick(&["$TRACE 0", "$NFLAG 1"]);
    let lines = [("$TRACE 1", 1), ("a", length), (end, 1), ("a", length)];
    case(file, lines.map(|(line, times)| (99, line.repeat(times))).to_vec())
}
