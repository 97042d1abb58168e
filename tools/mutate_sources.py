#!/usr/bin/env python3
"""mutate_sources.py OUT SEED TIMES FILE..

Writes for each source TIMES others into the folder OUT, each with one to three tokens changed at random so that most can
still be read and their types are at fault: for tools/agree_types.py, outside the gate."""
import os
import random
import re
import sys

TOKEN = re.compile(r"//[^\n]*|/\*.*?\*/|\s+|\"[^\"]*\"|'?\w+|::|->|=>|==|!=|<=|>=|&&|\|\||<<|>>|[-+*/%&|^]=|.", re.S)
INTEGERS = "u8 u16 u32 u64 u128 usize i8 i16 i32 i64 i128 isize".split()
BINARY = "+ - * / % & | ^ << >> == != < > <= >= && ||".split()
CHANGED = {  # what stands in the place of a token
    "true": ["false", "1"], "false": ["true", "1"], "mut": ["", ""], "&": ["", "& mut ", "&", "& & ", "*"],
    "*": ["", "**", "&", "*", "&mut *"], ";": ["", " ; ; ", "; return; ", "; let x = 1; ", "; break;"],
    "{": ["{ return; ", "{ let z = 1u8; ", "{ loop { break; } ", "{ panic!(); "],
    "}": [" ; }", " 1 }", " () }", " panic!() }"], ",": [", 1,", ", _,", ", true, "], "loop": ["while true", "loop"],
    "break": ["break 1", "continue", "break true", "return"], "return": ["break", "return 1;", ""],
    **{word: ["if", "while", "match"] for word in ("if", "while", "match")},
    **{sign: ["=", "+=", "<<=", "&=", "%="] for sign in ("+=", "-=", "*=", "=", "&=", "<<=")},
    **{ty: [*INTEGERS, "bool", "()", "Box<u8>", "(u8, bool)"] for ty in INTEGERS},
    **{sign: BINARY for sign in BINARY if sign not in ("&", "*", "|", "<", ">", "-")},
}
EXPRESSIONS = """1|true|()|0u8|300|-1|(1, true)|panic!()|{ }|return|break|continue|loop {}|&x|Box::new(1)|{ break 1 }
|(return, 2)""".replace("\n", "").split("|")
NUMBERS = ["1", "0", "255", "256", "-1", "true", "70000u32", "3u8", "-129", "1i64"]
ABOUT_NAMES = "*{}|& {}|&mut {}|mut {}|{}.0|({}, 1)|{} + 1|!{}|-{}|{{ {} }}|{} as u8|Box::new({})|_".split("|")
WORDS = set("""as break continue else enum false fn if let loop match mut pub return struct true use while bool Box std mem new
replace swap panic assert unreachable derive allow""".split()) | set(INTEGERS)


def other(token, names):
    """What stands in the place of a token."""
    if token in CHANGED:
        return random.choice(CHANGED[token])
    if token[0].isdigit():
        return random.choice(NUMBERS + EXPRESSIONS + [random.choice(names)])
    if token in names:
        return random.choice([random.choice(names)] * 4 + [about.format(token) for about in ABOUT_NAMES] + [random.choice(EXPRESSIONS)])
    return random.choice(["", token * 2])


def changed(source):
    for _ in range(random.choice([1, 1, 1, 2, 2, 3])):
        tokens = TOKEN.findall(source)
        places = [i for i, token in enumerate(tokens) if not token.isspace() and token[:2] not in ("//", "/*")]
        names = [tokens[i] for i in places if re.match(r"[a-zA-Z_]\w*$", tokens[i]) and tokens[i] not in WORDS] or ["x"]
        place = random.choice(places)
        tokens[place] = other(tokens[place], names)
        source = "".join(tokens)
    return source


def main():
    out, seed, times, *files = sys.argv[1:]
    random.seed(int(seed))
    os.makedirs(out, exist_ok=True)
    for k, path in enumerate(files):
        source = open(path, encoding="utf-8").read()
        for j in range(int(times)):
            with open(os.path.join(out, f"m{k * int(times) + j:06}.rs"), "w", encoding="utf-8") as made:
                made.write(changed(source))


if __name__ == "__main__":
    main()
