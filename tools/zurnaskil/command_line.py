"""What the words of a command line ask of `batchrun`, told from the sources alone: help, the version, work, or nothing.

It takes words as the program does, which takes them by `clap`. An option of one hyphen is read by its letters, and `-h` and `-V` are decided by
the first. After `--` no word is an option. tests/answered-words compares it with the program.
"""
import pathlib
import re

from zurnaskil import limits

TOP = pathlib.Path(__file__).resolve().parent.parent.parent
TOPICS = ["run", "restart", "plan", "check"]
NAMES = [*TOPICS, "help"]
LIMITED = ["run", "restart"]
WORK, WRONG = 100, 5
ADVICE = "batchrun --help says which words there are\n"
ROUNDS_ADVICE = f"`--rounds N` comes once, after `run` or `restart`; N is a number from 0 to {limits.ROUNDS}\n"
DOCUMENT_ADVICE = "a document is read from standard input: < job.json\n"
CONTROL = re.compile("[\x00-\x1f\x7f-\x9f]")


def help_of(topic):
    """The help of the program, or of a word: what the program is tested to print."""
    name = f"help-{topic}.txt" if topic else "help.txt"
    return 0, (TOP / "cases/words" / name).read_text(encoding="utf-8")


def version():
    source = (TOP / "crates/jb_program/src/words/help.rt").read_text(encoding="utf-8")
    return 0, re.search(r'const VERSION: &str = "(.*)\\n"', source)[1] + "\n"


def is_option(word):
    return word.startswith("-") and word not in ("-", "--")


def text_asked(option, topic):
    """What an option for help or for the version asks for after a word, or None if it is another option."""
    if option == "--help" or option.startswith("-h"):
        return help_of(topic)
    return version() if option == "--version" or option.startswith("-V") else None


def is_rounds(text):
    """Whether this is a number of rounds. Leading zeros say nothing."""
    digits = text.lstrip("0")
    return text.isascii() and text.isdigit() and len(digits) <= len(str(limits.ROUNDS)) and int(digits or "0") <= limits.ROUNDS


def asked_of(name, words):
    """What the words ask for after this subcommand. Its values are the number of rounds, or the subcommand that `help` is asked of."""
    topic = name if name in TOPICS else None
    values, is_waiting, is_trailing = [], False, False
    for word in words:
        option, equals, value = word.partition("=")
        if word == "--" and not is_trailing:
            is_trailing = True
        elif is_option(word) and not is_trailing:
            if (text := text_asked(word, topic)) and not is_waiting:
                return text
            if name not in LIMITED or option != "--rounds" or values or is_waiting:
                return None
            values, is_waiting = [value] if equals else [], not equals
        elif (is_waiting and not is_trailing) or (name == "help" and not values):
            values, is_waiting = [word], False
        else:
            return None
    if is_waiting:
        return None
    if name == "help":
        about = values[0] if values else "help"
        return help_of(about if about in TOPICS else None) if about in NAMES else None
    return (WORK, None) if all(map(is_rounds, values)) else None


def asked(words):
    """What the words ask for: a status and a text, WORK and None, or None if they ask for nothing."""
    if not words:
        return None
    return asked_of(words[0], words[1:]) if words[0] in NAMES else text_asked(words[0], None)


def can_go_on(words):
    """Whether the words ask for something, or would with a number after them."""
    return bool(asked(words) or asked([*words, "0"]))


def advice_on(before, word):
    """What is right where this word is wrong after these, or where to find it."""
    if word.startswith("--rounds") or before[-1:] == ["--rounds"]:
        return ROUNDS_ADVICE
    return DOCUMENT_ADVICE if before and before[0] in TOPICS and not word.startswith("-") else ADVICE


def fault_of(words):
    """The fault of words that ask for nothing: it names the first one up to which no number after them would help, else the last."""
    if not words:
        return f"no word\n{ADVICE}"
    fronts = (end for end in range(1, len(words)) if not can_go_on(words[:end]))
    *before, word = words[: next(fronts, len(words))]
    shown = CONTROL.sub(lambda found: f"\\u{{{ord(found[0]):x}}}", word)
    return f"wrong word: `{shown}`\n{advice_on(before, word)}"


def text_of(word):
    """The text of a word's bytes, or None if they are no text."""
    try:
        return word.decode()
    except UnicodeDecodeError:
        return None


def answer(given):
    """The status of the words, each in bytes, with what is written on standard output and on standard error."""
    words = [text_of(word) for word in given]
    if None in words:
        return WRONG, b"", f"a word is no text\n{ADVICE}".encode()
    status, text = asked(words) or (WRONG, None)
    return status, (text or "").encode(), fault_of(words).encode() if status == WRONG else b""
