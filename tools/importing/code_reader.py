"""Reads the code of methods: header lines, instructions and protected blocks (ECMA-335 II.15.4, II.19, III)."""

import re

from .report import ListingError
from .tree import Instruction, Method, TryBlock, Variable
from .types import VOID, MethodRef

_BRANCHES = frozenset(
    "br brtrue brfalse beq bne.un bge bgt ble blt bge.un bgt.un ble.un blt.un leave".split()
)
_OTHER_BRANCHES = {"brnull": "brfalse", "brzero": "brfalse", "brinst": "brtrue"}
_VARIABLES = frozenset(("ldarg", "starg", "ldarga", "ldloc", "stloc", "ldloca"))
_TYPED = frozenset(
    "newarr castclass isinst box unbox unbox.any ldelema ldelem stelem initobj ldobj stobj cpobj sizeof constrained. mkrefany refanyval".split()
)
_FIELDS = frozenset(("ldfld", "stfld", "ldsfld", "stsfld", "ldflda", "ldsflda"))
_METHODS = frozenset(("call", "callvirt", "newobj", "ldftn", "ldvirtftn", "jmp"))
_NUMBERED = re.compile(r"(ldarg|ldloc|stloc)\.([0-3])|ldc\.i4\.([0-8]|m1|M1)")
_WIDTHS = {"ldc.i4": 32, "ldc.i8": 64}


def read_body(reader, method: Method) -> None:
    """Reads the code of a method after its opening brace, up to the closing one."""
    method.code = _block(reader, method)
    method.lines["close"] = reader.cursor.tokens[reader.cursor.position - 1].line


def _block(reader, method: Method) -> list:
    cursor, code, labels = reader.cursor, [], []
    while not cursor.accept("}"):
        token = cursor.next()
        if cursor.at(":") and token.kind in ("word", "quoted"):
            cursor.next()
            labels.append(token.text)
        elif token.text == ".try":
            code.append(_try_block(reader, method, token.line))
        elif token.text.startswith("."):
            _header(reader, method, token)
        else:
            made = _instruction(reader, token)
            made.labels, labels = labels, []
            code.append(made)
    if labels:
        code.append(Instruction("nop", None, cursor.line, labels))
    return code


def _try_block(reader, method: Method, line: int) -> TryBlock:
    cursor = reader.cursor
    cursor.expect("{")
    made = TryBlock(_block(reader, method), line)
    while cursor.at("catch", "finally", "fault", "filter"):
        start = cursor.line
        kind = cursor.next().text
        if kind == "catch":
            cursor.type()
        if not cursor.accept("{"):
            raise ListingError(cursor.line, f"`{cursor.token.text}` where `{{` is expected")
        made.handlers.append((kind, start, _block(reader, method)))
    return made


def _header(reader, method: Method, token) -> None:
    cursor = reader.cursor
    if token.text == ".maxstack":
        method.max_stack_text = cursor.token.text
        method.max_stack = cursor.integer()
        method.lines["maxstack"] = token.line
    elif token.text == ".entrypoint":
        method.is_entry = True
        method.lines["entry"] = token.line
    elif token.text == ".locals":
        method.lines.setdefault("locals", token.line)
        cursor.accept("init")
        _locals(cursor, method)
    elif token.text == ".custom":
        reader.attribute()
    elif token.text == ".param":
        reader.parameter_constant()
    elif token.text == ".override":
        cursor.accept("method")
        method.overrides.append(_read_override(cursor))
    elif token.text == ".line":
        while cursor.line == token.line:
            cursor.next()
    else:
        raise ListingError(token.line, f"`{token.text}` where an instruction is expected")


def _read_override(cursor):
    """Reads the method after `.override`: whole, or `type::name` alone (II.10.3.2)."""
    start = cursor.position
    owner = cursor.type()
    if cursor.accept("::"):
        return MethodRef(owner, cursor.name(), VOID, (), True)
    cursor.position = start
    return cursor.method_ref()


def _locals(cursor, method: Method) -> None:
    cursor.expect("(")
    while not cursor.accept(")"):
        if cursor.at("["):
            cursor.skip_group("[", "]")
        line, kind = cursor.line, cursor.type()
        name = None if cursor.at(",", ")") else cursor.name()
        method.locals.append(Variable(kind, name, line))
        if not cursor.accept(",") and not cursor.at(")"):
            raise ListingError(cursor.line, f"`{cursor.token.text}` where `,` or `)` is expected")


def _instruction(reader, token) -> Instruction:
    """Reads the operand of an instruction and gives the instruction in its long form."""
    cursor, report, op = reader.cursor, reader.report, token.text
    if token.kind != "word":
        raise ListingError(token.line, f"`{op}` where an instruction is expected")
    numbered = _NUMBERED.fullmatch(op)
    if numbered:
        return _numbered_variable(token, numbered)
    if op.endswith(".s"):
        report.count("short forms `.s`")
        op = op[:-2]
    op = _OTHER_BRANCHES.get(op, op)
    made = Instruction(op, None, token.line)
    if op in _WIDTHS:
        _constant(cursor, report, made)
    elif op in ("ldc.r4", "ldc.r8"):
        if cursor.at("("):
            cursor.skip_group("(", ")")
        else:
            cursor.next()
    elif op in _VARIABLES:
        made.operand = _variable(cursor)
        made.written = f"{op} {cursor.tokens[cursor.position - 1].text}"
    elif op in _BRANCHES:
        made.operand = cursor.next().text
    elif op == "switch":
        made.operand = _targets(cursor)
    elif op in _TYPED:
        made.operand = cursor.type()
    elif op in _FIELDS:
        made.operand = cursor.field_ref()
    elif op in _METHODS:
        made.operand = cursor.method_ref()
    else:
        _other(cursor, report, made)
    return made


def _numbered_variable(token, match: re.Match) -> Instruction:
    if match[1]:
        return Instruction(match[1], int(match[2]), token.line, written=token.text)
    number = -1 if match[3] in ("m1", "M1") else int(match[3])
    return Instruction("ldc.i4", number, token.line, written=token.text)


def _constant(cursor, report, made: Instruction) -> None:
    text = cursor.token.text
    number = cursor.integer()
    bits = _WIDTHS[made.op]
    if "x" in text:
        report.count("hexadecimal numbers")
        number = (number + (1 << bits - 1)) % (1 << bits) - (1 << bits - 1)
    else:
        made.written = f"{made.op} {text}"
    made.operand = number


def _variable(cursor) -> int | str:
    token = cursor.token
    return cursor.integer() if token.kind == "number" else cursor.name()


def _targets(cursor) -> tuple[str, ...]:
    cursor.expect("(")
    found = []
    while not cursor.accept(")"):
        found.append(cursor.next().text)
        cursor.accept(",")
    return tuple(found)


def _other(cursor, report, made: Instruction) -> None:
    """Reads the operands of `ldstr`, `ldtoken` and `calli`; an instruction that is not known has none."""
    if made.op == "ldstr":
        if cursor.accept("bytearray"):
            cursor.skip_group("(", ")")
            report.refuse(made.line, "a string with characters that are not ASCII", "write ASCII characters")
            made.operand = '""'
        else:
            made.operand = cursor.next().text
    elif made.op == "ldtoken":
        made.operand = cursor.field_ref() if cursor.accept("field") else cursor.type()
    elif made.op == "calli":
        while not cursor.at("("):
            cursor.next()
        cursor.skip_group("(", ")")
