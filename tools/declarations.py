"""What the Rattle source, the C header and the Rust wrapper declare, in one form: functions, structs and enums by name, each a list of names with their types
or numbers. A function's list ends in its result. For tools/verify-interface.
"""
import glob
import os
import re

HEADER, WRAPPER = 'include/lakhido.h', 'bindings/rust/src'

# Where the structs of the interface are, and its functions.
EXPORTED = ('crates/interface/src', 'crates/capi*/src')

# Names of parameters: in the Rattle source, and in header and wrapper. Any other name is the same in all three.
NAMES = {'p': 'motif_bases', 'pm': 'motif_mates', 'q': 'bases', 'qm': 'mates', 'd': 'number'}

# Types: in C, and in Rattle and Rust.
TYPES = {'uint8_t': 'u8', 'uint16_t': 'u16', 'uint32_t': 'u32', 'uint64_t': 'u64', 'size_t': 'usize', 'bool': 'bool', 'void': '()',
         'lakhido_answer': 'Answer', 'lakhido_window_answer': 'WindowAnswer', 'lakhido_batch_answer': 'BatchAnswer'}

# Where the constants are that may be the length of an array in a struct of the interface.
ARRAY_LENGTHS = 'crates/calls/src/*.rt'

# ---- parts of declarations


def read(path):
    """The files of a path, without comments."""
    texts = []
    for name in sorted(glob.glob(path)):
        with open(name, encoding='utf-8') as file:
            texts.append(re.sub(r'/\*.*?\*/|//[^\n]*', ' ', file.read(), flags=re.S))
    return '\n'.join(texts)


def take(pattern, text):
    """What a pattern finds, and the text without it."""
    return list(re.finditer(pattern, text, re.S | re.M)), re.sub(pattern, ' ', text, flags=re.S | re.M)


def typed(text):
    """Parameters or fields `name: type` of Rattle or Rust."""
    parts = [' '.join(part.split()) for part in text.split(',')]
    return [tuple(re.sub(r'^pub ', '', part).split(': ', 1)) for part in parts if part]


def passed(parameters):
    """Parameters as C passes them, under the header's names: a slice is a pointer and a length."""
    found = []
    for name, kind in parameters:
        name, lent = NAMES.get(name, name), re.fullmatch(r'&(mut )?(\[?)(\w+)\]?', kind)
        found.append((name, ('*mut ' if lent[1] else '*const ') + lent[3] if lent else kind))
        found += [(name + '_length', 'usize')] if lent and lent[2] else []
    return found


def sized(fields, lengths):
    """Fields with the length of an array as a number, where `lengths` has its name."""
    return [(name, re.sub(r'; (?:\w+::)*(\w+)\]', lambda one: '; %s]' % lengths.get(one[1], one[1]), kind)) for name, kind in fields]


def c_typed(text, end):
    """Parameters or fields of C, in the form of `typed`."""
    found = []
    for part in [] if text.strip() == 'void' else text.split(end):
        one = re.fullmatch(r'\s*(const )?\s*(\w+)\s+(\*?)(\w+)(?:\[(\w+)\])?\s*', part)
        if one and (one[3] or not one[1]) and not (one[3] and one[5]):
            kind = TYPES.get(one[2], one[2])
            kind = '[%s; %s]' % (kind, one[5]) if one[5] else kind
            found.append((one[4], ('*const ' if one[1] else '*mut ') + kind if one[3] else kind))
        elif part.strip():
            found.append((part.strip(), 'not understood'))
    return found


def valued(text):
    """The names of an enum and their numbers."""
    found, number = [], -1
    for part in filter(str.strip, text.split(',')):
        name, _, told = part.partition('=')
        number = int(told, 0) if told.strip() else number + 1
        found.append((name.strip(), number))
    return found


def constants(root, path):
    return re.findall(r'\bconst (\w+): \w+ = (\d+);', read(os.path.join(root, path)))


def snake(name):
    return re.sub(r'(?<!^)([A-Z])', r'_\1', name).lower()


def camel(name):
    return name.title().replace('_', '')


# ---- the three places

REPR = r'#\[repr\(%s\)\]\s*(?:#\[[^\]]*\]\s*)*pub (struct|enum) (\w+) \{(.*?)\n\}'


def rust_types(text, kind, lengths=()):
    """Structs and enums with #[repr(kind)], in Rattle or in Rust; `lengths` are names and numbers of constants."""
    found = {'struct': {}, 'enum': {}}
    for one in re.finditer(REPR % kind, text, re.S):
        found[one[1]][one[2]] = sized(typed(one[3]), dict(lengths)) if one[1] == 'struct' else valued(one[3])
    return found


def rattle_source(root):
    """Also the parameters as they are written but for lifetimes, which C has not, and a line for what is exported in a form that this script does not know."""
    text = '\n'.join(read(os.path.join(root, path, '*.rt')) for path in EXPORTED)
    text = re.sub(r"&'\w+ ", '&', re.sub(r"(\bfn \w+)<'\w+(?:, '\w+)*>\(", r'\1(', text))
    written, results = {}, {}
    for one in re.finditer(r'#\[unsafe\(no_mangle\)\]\s*pub extern "C" fn (\w+)\(([^()]*)\)(?:\s*->\s*(\w+))?\s*(?:ensures|requires|\{)', text):
        written[one[1]], results[one[1]] = typed(one[2]), one[3] or '()'
    kinds = rust_types(text, 'C', constants(root, ARRAY_LENGTHS))
    functions = {name: passed(written[name]) + [('result', results[name])] for name in written}
    strange = ['%s: %d times `%s`, %d understood' % (' and '.join(EXPORTED), text.count(sign), sign, count) for sign, count in (
        ('no_mangle', len(written)), ('extern "C"', len(written)), ('repr(', len(kinds['struct']) + len(kinds['enum']))) if text.count(sign) != count]
    return functions, kinds, written, strange


def header_source(root):
    """Also its macros, and what it has besides."""
    text = re.sub(r'\\\n', ' ', read(os.path.join(root, HEADER)))
    _, text = take(r'^#ifdef __cplusplus\n(?:extern "C" \{|\})\n#endif$', text)
    macros, text = take(r'^#define (\w+(?:\([^)]*\))?) ?(.*?)$', text)
    _, text = take(r'^#(?:include|ifndef|endif).*?$', text)
    enums, text = take(r'enum (\w+) \{(.*?)\};', text)
    structs, text = take(r'typedef struct (\w+) \{(.*?)\} \1;', text)
    calls, text = take(r'(\w+) (\w+)\(([^()]*)\);', text)
    functions = {one[2]: c_typed(one[3], ',') + [('result', TYPES.get(one[1], one[1]))] for one in calls}
    macros = {one[1]: one[2].strip() for one in macros}
    kinds = {'struct': {TYPES.get(one[1], one[1]): sized(c_typed(one[2], ';'), macros) for one in structs}, 'enum': {one[1]: valued(one[2]) for one in enums}}
    return functions, kinds, macros, text.split()


def wrapper_source(root):
    """Also what its `extern` blocks have besides."""
    text = read(os.path.join(root, WRAPPER, '*.rs'))
    blocks, _ = take(r'extern "C" \{(.*?)\n\s*\}', text)
    calls, rest = take(r'pub fn (\w+)\(([^()]*)\)(?: -> (\w+))?;', '\n'.join(one[1] for one in blocks))
    kinds = rust_types(text, 'C', constants(root, WRAPPER + '/lib.rs'))
    return {one[1]: typed(one[2]) + [('result', one[3] or '()')] for one in calls}, kinds, rest.split()
