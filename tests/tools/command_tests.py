"""Commands that need nothing built: assemble, disassemble, words and log."""
import os
from checking import CARD, ROOT, check, example, run
from logs import parse_input
from notation import encode, from_bytes, parse, to_bytes


def commands():
    path = os.path.join(ROOT, 'examples', 'M.card')
    code, data, _ = run(CARD, 'assemble', path)
    check(code == 0 and data == to_bytes(encode(parse(example('M.card')))), 'assemble')
    check(run(CARD, 'assemble', '-', stdin=example('M.card').encode())[1] == data, 'assemble -')
    code, text, _ = run(CARD, 'disassemble', '-', stdin=data)
    check(code == 0 and run(CARD, 'assemble', '-', stdin=text)[1] == data, 'disassemble -')
    code, out, errors = run(CARD, 'disassemble', '-', stdin=data[:8] + data[12:])
    check(code == 2 and out == b'' and 'word 2: ' in errors, f'disassemble a damaged card: {errors}')
    check(run(CARD, 'disassemble', '-', stdin=data[:-1])[0] == 2, 'disassemble a cut word')
    code, out, _ = run(CARD, 'words', path)
    check(code == 0 and [int(line.split()[1], 16) for line in out.decode().splitlines()] == from_bytes(data), 'words')
    code, out, errors = run(CARD, 'words', '-', stdin=data[:8] + data[12:])
    check(code == 2 and len(out.splitlines()) == len(data) // 4 - 1 and 'word 2: ' in errors, 'words of a damaged card')
    check(run(CARD, 'log', path, 'a a', 'bc')[:2] == (0, b'\0\0\1\2'), 'log')
    check(run(CARD, 'log', path)[:2] == (0, b''), 'an empty log')
    code, out, errors = run(CARD, 'log', path, 'a d')
    check(code == 2 and out == b'' and 'event 1' in errors, 'a log with an unknown letter')
    check(parse_input(parse('letters in out i\nS -> in'), 'in out i') == b'\0\1\2', 'a log of longer letters')
    check(run(CARD, 'log', path, 'a<b', 'c<', 'a <')[0] == 2, 'a mark behind no letter')
    check(run(CARD, 'log', path, 'a<b', 'c<')[:2] == (0, b'\x80\1\x82'), 'a log with directions')
    code, out, errors = run(CARD, 'assemble', '-', stdin=b'letters a\nS -> b')
    check(code == 2 and out == b'' and 'line 2' in errors, 'assemble a faulty text')
    print('commands: assemble, disassemble, words, log')
