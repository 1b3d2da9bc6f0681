"""The cases of `settle` and `judge`, which answer the console's input: what lines are answered, and each fault of a console."""

from serve_texts import NOW, SECRET, order

SETTLE = f"settle --secret {SECRET.hex()}"
JUDGE = "judge --k 2 --share 1"

# When the limits were issued, the last second at which they can be settled, and the one after.
ISSUED, LAST, LATE = NOW, 1772582400, 1772582401

# Node 7's orders under the limit of 1000 bytes, node 8's of the same serial, and node 7's of the next serial.
X_1000, X_999, X_1001 = (order(1, 7, amount).hex() for amount in (1000, 999, 1001))
NODE_8, SERIAL_2 = order(1, 8, 1000).hex(), order(2, 7, 1000).hex()

LINES = (
    ("4", "", ""),
    ("4", f"7 {ISSUED} {X_1000}\\n", "settled 1000\\n"),
    ("4", f"7 {ISSUED} {X_1000}\\n7 {LATE} {X_1000}", "settled 1000\\nagain 1000\\n"),
    (
        "4",
        f"7 {ISSUED} {X_1000}\\n7 {ISSUED} {X_999}\\n8 {ISSUED} {X_1000}\\n8 {ISSUED} {NODE_8}",
        "settled 1000\\ndiffers 1000\\nother-node 7\\nsettled 1000\\n",
    ),
    ("4", f"7 {ISSUED} {X_1001}\\n7 {ISSUED} {X_1000}", "over-limit 1000\\nsettled 1000\\n"),
    ("4", f"7 {LAST} {X_1000}", "settled 1000\\n"),
    ("4", f"7 {LATE} {X_1000}", f"late {LAST}\\n"),
    (
        "1",
        f"7 {ISSUED} {X_1000}\\n7 {ISSUED} {SERIAL_2}\\n7 {ISSUED} {X_1000}",
        "settled 1000\\nsettled-full 1\\nagain 1000\\n",
    ),
    ("4", f"7 {ISSUED}\\n\\n7 {ISSUED} {X_1000}\\r\\n", "bad-line\\nbad-line\\nsettled 1000\\n"),
)

# Lines of the form, and lines that haven't it.
FORMS = (
    (f"7 {NOW} \\n", "length 0"),
    (f"7 {NOW} \\r\\n", "length 0"),
    (f"7 {NOW} \\r", "bad-line"),
    (f"7 {NOW} \\r\\r\\n", "bad-line"),
    ("\\r", "bad-line"),
    ("7", "bad-line"),
    ("\\x207 1 \\n", "bad-line"),
    ("7  1 \\n", "bad-line"),
    ("7 1  \\n", "bad-line"),
    ("7\\x091 \\n", "bad-line"),
    ("7 1 00 \\n", "bad-line"),
    ("7 1 0\\n", "bad-line"),
    ("7 1 aB\\n7 1 Ab", "length 1\\nlength 1"),
    ("7 1 0g\\n", "bad-line"),
    ("+7 1 \\n", "bad-line"),
    ("-7 1 \\n", "bad-line"),
    ("0 0 \\n", "length 0"),
    ("007 0001 \\n", "length 0"),
    ("4294967295 68719476735 \\n", "length 0"),
    ("4294967296 1 \\n", "bad-line"),
    ("1 68719476736 \\n", "bad-line"),
    ("18446744073709551617 1 \\n", "bad-line"),
    ("00000000000000000007 1 \\n", "length 0"),
    ("000000000000000000007 1 \\n", "bad-line"),
    ("1 123456789012345678901234567890 \\n", "bad-line"),
    ("7 1 \\x00\\n", "bad-line"),
    ("\\x00\\n", "bad-line"),
    ("\\n\\r\\n\\n", "bad-line\\nbad-line\\nbad-line"),
    ("7 1 \\xff\\xfe\\n", "bad-line"),
)

# The data 1 and 2 have the shares 1, 2, 7, 4, 13 and 14 at the indexes 0 to 5, and 128 at 127.
ANSWERS = (
    ("0 01\\n1 02\\n2 07\\n3 09\\n4 0d\\n5 00\\n", "blamed 3 5"),
    ("0 01\\n1 02\\n2 07\\n3 0404\\n4 0d\\n5 0e\\n", "blamed 3"),
    ("0 00\\n1 00\\n2 00\\n3 04\\n4 0d\\n5 0e\\n", "unclear 6"),
    ("0 01\\n1 05\\n", "unclear 2"),
    ("0 01\\n1 02\\n2 07\\n3 04\\n4 0d\\n5 0e", "blamed none"),
    ("0 00\\n1 03\\n2 06\\n3 05\\n4 0c\\n5 0f\\n", "blamed none"),
    ("0 01\\n1 02\\n2 07\\n3 04\\n127 81\\n", "blamed 127"),
    ("", "unclear 0"),
    ("127 00\\n", "unclear 1"),
    ("0 0102\\n1 02\\n2 07\\n", "unclear 3"),
    ("00 01\\r\\n1 02\\r\\n00000000000000000002 07\\r\\n3 04\\r\\n4 0D\\r\\n5 0E\\r\\n", "blamed none"),
)

BAD_ANSWERS = (
    ("1 02\\n0 01\\n", 2),
    ("0 01\\n0 01\\n", 2),
    ("0 01\\n1 0\\n1 0\\n", 2),
    ("0 01\\n\\n", 2),
    ("128 01\\n", 1),
    ("18446744073709551617 01\\n", 1),
    ("000000000000000000000 01\\n", 1),
    ("0 \\n", 1),
    ("0\\n", 1),
    ("0  01\\n", 1),
    ("\\x200 01\\n", 1),
    ("0 01 \\n", 1),
    ("0 0g\\n", 1),
    ("-0 01\\n", 1),
    ("0 01\\r", 1),
    ("\\r\\n", 1),
)

MEBIBYTE = 1 << 20


def asked(t, words, text, status, console):
    """One run over an input."""
    if text:
        t.note(f"input {text}")
    t.run(words, status, console)


def failing(t, words, text, numbers, status, console):
    """One run whose calls of the console of these numbers fail."""
    t.note(f"fail console {numbers}")
    asked(t, words, text, status, console)


def flipped(at):
    """The sample order with the lowest bit of one byte flipped, and what it is answered."""
    text = bytearray.fromhex(X_1000)
    text[at] ^= 1
    name = "version 0" if at == 0 else "limit-tag" if at < 83 else "order-tag"
    return f"7 {NOW} {text.hex()}\\n", f"{name}\\n"


def changed(at, byte):
    text = bytearray.fromhex(X_1000)
    text[at] = byte
    return f"7 {NOW} {text.hex()}"


def settle_cases(t):
    t.say("# Lines of orders, and what they are answered.")
    t.store()
    for cap, text, console in LINES:
        asked(t, f"{SETTLE} --cap {cap}", text, 0, console)
    t.say("# Lines of the form alone.")
    for text, console in FORMS:
        asked(t, SETTLE, text, 0, console + "\\n")
    t.say("# An order with each byte flipped; and what is wrong with one is named.")
    texts, names = zip(*map(flipped, range(len(X_1000) // 2)))
    asked(t, SETTLE, "".join(texts), 0, "".join(names))
    for at, byte, name in ((0, 2, "version 2"), (1, 0, "action 0"), (1, 9, "action 9"), (1, 6, "action 6"), (1, 5, "limit-tag")):
        asked(t, SETTLE, changed(at, byte), 0, name + "\\n")
    asked(t, SETTLE, f"7 {NOW} {X_1000}00\\n7 {NOW} {X_1000[:-2]}", 0, "length 124\\nlength 122\\n")
    t.say("# The console's first call takes the input, the second finds its end, the third writes the answer.")
    for numbers, status, console in (
        ("1", 11, "error: input\\n"), ("2", 11, "error: input\\n"), ("3", 5, ""), ("4", 0, "settled 1000\\n"), ("1,2", 11, ""), ("2,3", 11, ""),
    ):
        failing(t, SETTLE, f"7 {ISSUED} {X_1000}\\n", numbers, status, console)
    failing(t, "settle", "", "1", 2, "")
    t.say("# An input of a mebibyte is taken, and no longer one.")
    for size, status, console in ((MEBIBYTE, 0, "bad-line\\n"), (MEBIBYTE + 1, 12, "error: input-long\\n"), (3000000, 12, "error: input-long\\n")):
        asked(t, SETTLE, f"<{size} 0>", status, console)


def judge_cases(t):
    t.say("# Answers to an audit, judged by the near stripe.")
    t.store()
    for text, console in ANSWERS:
        asked(t, JUDGE, text, 0, console + "\\n")
    asked(t, "judge --share 2 --k 2", "0 0101\\n1 0202\\n2 0707\\n3 0409\\n", 0, "blamed 3\\n")
    asked(t, "judge --k 1 --share 1", "0 05\\n1 06\\n2 05\\n", 0, "blamed 1\\n")
    t.say("# Two answers more than rebuild the stripe are needed.")
    zeros = "".join(f"{index} 00\\n" for index in range(128))
    asked(t, "judge --k 126 --share 1", zeros, 0, "blamed none\\n")
    asked(t, "judge --k 127 --share 1", zeros, 0, "unclear 128\\n")
    t.say("# The first bad line is refused.")
    for text, number in BAD_ANSWERS:
        asked(t, JUDGE, text, 8, f"error: refused bad-line {number}\\n")
    t.say("# Faults of the console, and an input that is too long.")
    for text, numbers, status, console in (
        ("0 01\\n", "2", 11, "error: input\\n"), ("0 01\\n", "3", 5, ""), ("0 0\\n", "3", 8, ""), ("0 0\\n", "2,3", 11, ""),
    ):
        failing(t, JUDGE, text, numbers, status, console)
    asked(t, JUDGE, f"<{MEBIBYTE + 1} 0>", 12, "error: input-long\\n")
    t.say("# Both numbers, within their bounds.")
    asked(t, "judge --share 1024 --k 127", "", 0, "unclear 0\\n")
    asked(t, "judge --k 00000000000000000001 --share 1", "", 0, "unclear 0\\n")
    for words in ("judge", "judge --k 2", "judge --k 0 --share 1", "judge --k 128 --share 1", "judge --k 2 --share 1025", "settle --help"):
        asked(t, words, "", 2, "error: usage\\n")


def console_cases(t):
    settle_cases(t)
    t.say("")
    judge_cases(t)
