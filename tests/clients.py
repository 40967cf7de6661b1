#!/usr/bin/env python3
"""Replaces bodies of encoding_rs by calls of the Rust crate in rust/: tests/clients.py SOURCES CRATE CFG_IF

SOURCES is a copy of encoding_rs, which is changed; CRATE and CFG_IF are the folders of the two crates that it depends
on. Prints the number of bodies. tests/clients runs it.
"""
import re
import sys
from pathlib import Path

# The functions of each file, which the crate has in a module of the same name.
FUNCTIONS = {
    'mem.rs': '''
        is_ascii is_basic_latin is_utf8_latin1 is_str_latin1 is_utf16_latin1 is_utf8_bidi is_str_bidi is_utf16_bidi
        is_char_bidi is_utf16_code_unit_bidi check_utf8_for_latin1_and_bidi check_str_for_latin1_and_bidi
        check_utf16_for_latin1_and_bidi convert_utf8_to_utf16 convert_str_to_utf16
        convert_utf8_to_utf16_without_replacement convert_utf16_to_utf8_partial convert_utf16_to_utf8
        convert_utf16_to_str_partial convert_utf16_to_str convert_latin1_to_utf16 convert_latin1_to_utf8_partial
        convert_latin1_to_utf8 convert_latin1_to_str_partial convert_latin1_to_str convert_utf8_to_latin1_lossy
        convert_utf16_to_latin1_lossy decode_latin1 encode_latin1_lossy utf16_valid_up_to utf8_latin1_up_to
        str_latin1_up_to ensure_utf16_validity copy_ascii_to_ascii copy_ascii_to_basic_latin
        copy_basic_latin_to_ascii''',
    'utf_8.rs': '''
        utf8_valid_up_to convert_utf8_to_utf16_up_to_invalid convert_utf16_to_utf8_partial_inner
        convert_utf16_to_utf8_partial_tail''',
    'ascii.rs': 'ascii_valid_up_to iso_2022_jp_ascii_valid_up_to',
}
# Their type is that of encoding_rs, so the crate's has to be converted.
BIDI = 'match {} {{ ' + ', '.join(f'encoding_text::mem::Latin1Bidi::{kind} => Latin1Bidi::{kind}' for kind in
                                  ('Latin1', 'LeftToRight', 'Bidi')) + ' }}'


def body_end(text, start):
    """Returns the offset of the brace that closes the one at `start`."""
    depth = 0
    for offset in range(start, len(text)):
        depth += {'{': 1, '}': -1}.get(text[offset], 0)
        if depth == 0:
            return offset
    sys.exit('tests/clients.py: a brace is not closed')


def replace_body(text, module, name):
    """Returns the source with a call as the function's body."""
    found = re.search(rf'^pub fn {name}(<[^>]*>)?\(([^)]*)\)[^{{]*\{{', text, re.MULTILINE)
    if found is None:
        sys.exit(f'tests/clients.py: {module}.rs has no function {name}')
    arguments = [argument.split(':')[0].strip() for argument in found[2].split(',') if argument.strip()]
    call = f'encoding_text::{module}::{name}({", ".join(arguments)})'
    if name.startswith('check_'):
        call = BIDI.format(call)
    return f'{text[:found.end()]}\n    {call}\n{text[body_end(text, found.end() - 1):]}'


def manifest(text, crate, cfg_if):
    """Returns the manifest with the two crates by their folders, and without what needs others."""
    text = re.sub(r'^\[((dev-)?dependencies\.[\w-]+|badges\.[\w-]+)\]\n(.+\n)*', '', text, flags=re.MULTILINE)
    return f'{text}\n[dependencies]\nencoding_text = {{ path = "{crate}" }}\ncfg-if = {{ path = "{cfg_if}" }}\n'


def main(sources, crate, cfg_if):
    count = 0
    for file, names in FUNCTIONS.items():
        path = Path(sources, 'src', file)
        text = path.read_text()
        for name in names.split():
            text = replace_body(text, path.stem, name)
            count += 1
        path.write_text(text)
    path = Path(sources, 'Cargo.toml')
    path.write_text(manifest(path.read_text(), crate, cfg_if))
    print(f'{count} bodies')


if __name__ == '__main__':
    main(*sys.argv[1:])
