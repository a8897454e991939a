"""The instructions of WebAssembly: the names of all, and the C expressions of those that the translator knows."""
from typing import Dict, NamedTuple, Tuple

I32, I64, V128 = 0x7F, 0x7E, 0x7B
C_TYPES = {I32: "u32", I64: "u64", V128: "v128"}


def _numbered(first, words):
    return dict(enumerate(words.split(), first))


def _extending(word, kind):
    return " ".join(f"{word}_{half}_{kind}_{sign}" for sign in "su" for half in ("low", "high"))


def _typed(kind, words):
    return " ".join(f"{kind}.{word}" for word in words.split())


_COMPARED = "eq ne lt_s lt_u gt_s gt_u le_s le_u ge_s ge_u"
_INTEGER = "clz ctz popcnt add sub mul div_s div_u rem_s rem_u and or xor shl shr_s shr_u rotl rotr"
_FLOAT_COMPARED = "eq ne lt gt le ge"
_FLOAT_VECTOR = "sqrt add sub mul div min max pmin pmax"
_FLOAT = "abs neg ceil floor trunc nearest sqrt add sub mul div min max copysign"

# The names of the instructions with a code of one byte.
ONE_BYTE = {
    **_numbered(0x00, "unreachable nop block loop if else"),
    **_numbered(0x0B, "end br br_if br_table return call call_indirect return_call return_call_indirect"),
    **_numbered(0x1A, "drop select select_typed"),
    **_numbered(0x20, "local.get local.set local.tee global.get global.set table.get table.set"),
    **_numbered(0x28, "i32.load i64.load f32.load f64.load i32.load8_s i32.load8_u i32.load16_s i32.load16_u"),
    **_numbered(0x30, "i64.load8_s i64.load8_u i64.load16_s i64.load16_u i64.load32_s i64.load32_u i32.store i64.store"),
    **_numbered(0x38, "f32.store f64.store i32.store8 i32.store16 i64.store8 i64.store16 i64.store32 memory.size"),
    **_numbered(0x40, "memory.grow i32.const i64.const f32.const f64.const"),
    **_numbered(0x45, _typed("i32", "eqz " + _COMPARED)),
    **_numbered(0x50, _typed("i64", "eqz " + _COMPARED)),
    **_numbered(0x5B, _typed("f32", _FLOAT_COMPARED)),
    **_numbered(0x61, _typed("f64", _FLOAT_COMPARED)),
    **_numbered(0x67, _typed("i32", _INTEGER)),
    **_numbered(0x79, _typed("i64", _INTEGER)),
    **_numbered(0x8B, _typed("f32", _FLOAT)),
    **_numbered(0x99, _typed("f64", _FLOAT)),
    **_numbered(0xA7, "i32.wrap_i64 i32.trunc_f32_s i32.trunc_f32_u i32.trunc_f64_s i32.trunc_f64_u"),
    **_numbered(0xAC, "i64.extend_i32_s i64.extend_i32_u i64.trunc_f32_s i64.trunc_f32_u i64.trunc_f64_s i64.trunc_f64_u"),
    **_numbered(0xB2, _typed("f32", "convert_i32_s convert_i32_u convert_i64_s convert_i64_u demote_f64")),
    **_numbered(0xB7, _typed("f64", "convert_i32_s convert_i32_u convert_i64_s convert_i64_u promote_f32")),
    **_numbered(0xBC, "i32.reinterpret_f32 i64.reinterpret_f64 f32.reinterpret_i32 f64.reinterpret_i64"),
    **_numbered(0xC0, "i32.extend8_s i32.extend16_s i64.extend8_s i64.extend16_s i64.extend32_s"),
    **_numbered(0xD0, "ref.null ref.is_null ref.func"),
}

# The names of the instructions with a prefix and a number after it.
AFTER_FC = {
    **_numbered(0, _typed("i32", "trunc_sat_f32_s trunc_sat_f32_u trunc_sat_f64_s trunc_sat_f64_u")),
    **_numbered(4, _typed("i64", "trunc_sat_f32_s trunc_sat_f32_u trunc_sat_f64_s trunc_sat_f64_u")),
    **_numbered(8, "memory.init data.drop memory.copy memory.fill table.init elem.drop table.copy table.grow table.size"),
    **_numbered(17, "table.fill"),
}
AFTER_FD = {
    **_numbered(0x00, _typed("v128", "load load8x8_s load8x8_u load16x4_s load16x4_u load32x2_s load32x2_u load8_splat")),
    **_numbered(0x08, _typed("v128", "load16_splat load32_splat load64_splat store const")),
    **_numbered(0x0D, "i8x16.shuffle i8x16.swizzle i8x16.splat i16x8.splat i32x4.splat i64x2.splat f32x4.splat f64x2.splat"),
    **_numbered(0x15, "i8x16.extract_lane_s i8x16.extract_lane_u i8x16.replace_lane i16x8.extract_lane_s"),
    **_numbered(0x19, "i16x8.extract_lane_u i16x8.replace_lane i32x4.extract_lane i32x4.replace_lane"),
    **_numbered(0x1D, "i64x2.extract_lane i64x2.replace_lane f32x4.extract_lane f32x4.replace_lane"),
    **_numbered(0x21, "f64x2.extract_lane f64x2.replace_lane"),
    **_numbered(0x23, _typed("i8x16", _COMPARED)),
    **_numbered(0x2D, _typed("i16x8", _COMPARED)),
    **_numbered(0x37, _typed("i32x4", _COMPARED)),
    **_numbered(0x41, _typed("f32x4", _FLOAT_COMPARED)),
    **_numbered(0x47, _typed("f64x2", _FLOAT_COMPARED)),
    **_numbered(0x4D, _typed("v128", "not and andnot or xor bitselect any_true load8_lane load16_lane load32_lane")),
    **_numbered(0x57, _typed("v128", "load64_lane store8_lane store16_lane store32_lane store64_lane load32_zero load64_zero")),
    **_numbered(0x5E, "f32x4.demote_f64x2_zero f64x2.promote_low_f32x4"),
    **_numbered(0x60, _typed("i8x16", "abs neg popcnt all_true bitmask narrow_i16x8_s narrow_i16x8_u")),
    **_numbered(0x67, _typed("f32x4", "ceil floor trunc nearest")),
    **_numbered(0x6B, _typed("i8x16", "shl shr_s shr_u add add_sat_s add_sat_u sub sub_sat_s sub_sat_u")),
    **_numbered(0x74, "f64x2.ceil f64x2.floor i8x16.min_s i8x16.min_u i8x16.max_s i8x16.max_u f64x2.trunc i8x16.avgr_u"),
    **_numbered(0x7C, "i16x8.extadd_pairwise_i8x16_s i16x8.extadd_pairwise_i8x16_u"),
    **_numbered(0x7E, "i32x4.extadd_pairwise_i16x8_s i32x4.extadd_pairwise_i16x8_u"),
    **_numbered(0x80, _typed("i16x8", "abs neg q15mulr_sat_s all_true bitmask narrow_i32x4_s narrow_i32x4_u")),
    **_numbered(0x87, _typed("i16x8", _extending("extend", "i8x16"))),
    **_numbered(0x8B, _typed("i16x8", "shl shr_s shr_u add add_sat_s add_sat_u sub sub_sat_s sub_sat_u")),
    **_numbered(0x94, "f64x2.nearest " + _typed("i16x8", "mul min_s min_u max_s max_u")),
    **_numbered(0x9B, _typed("i16x8", "avgr_u " + _extending("extmul", "i8x16"))),
    **_numbered(0xA0, "i32x4.abs i32x4.neg"),
    **_numbered(0xA3, "i32x4.all_true i32x4.bitmask"),
    **_numbered(0xA7, _typed("i32x4", _extending("extend", "i16x8") + " shl shr_s shr_u add")),
    **_numbered(0xB1, "i32x4.sub"),
    **_numbered(0xB5, _typed("i32x4", "mul min_s min_u max_s max_u dot_i16x8_s")),
    **_numbered(0xBC, _typed("i32x4", _extending("extmul", "i16x8"))),
    **_numbered(0xC0, "i64x2.abs i64x2.neg"),
    **_numbered(0xC3, "i64x2.all_true i64x2.bitmask"),
    **_numbered(0xC7, _typed("i64x2", _extending("extend", "i32x4") + " shl shr_s shr_u add")),
    **_numbered(0xD1, "i64x2.sub"),
    **_numbered(0xD5, _typed("i64x2", "mul eq ne lt_s gt_s le_s ge_s " + _extending("extmul", "i32x4"))),
    **_numbered(0xE0, "f32x4.abs f32x4.neg"),
    **_numbered(0xE3, _typed("f32x4", _FLOAT_VECTOR)),
    **_numbered(0xEC, "f64x2.abs f64x2.neg"),
    **_numbered(0xEF, _typed("f64x2", _FLOAT_VECTOR)),
    **_numbered(0xF8, "i32x4.trunc_sat_f32x4_s i32x4.trunc_sat_f32x4_u f32x4.convert_i32x4_s f32x4.convert_i32x4_u"),
    **_numbered(0xFC, "i32x4.trunc_sat_f64x2_s_zero i32x4.trunc_sat_f64x2_u_zero"),
    **_numbered(0xFE, "f64x2.convert_low_i32x4_s f64x2.convert_low_i32x4_u"),
}
PREFIXES = {0xFC: AFTER_FC, 0xFD: AFTER_FD}


class Form(NamedTuple):
    """The C expression of an instruction. `{0}` and `{1}` in the text are its operands."""

    text: str
    operands: Tuple[int, ...]
    result: int
    # Whether the expression has the type int and the value 0 or 1.
    is_condition: bool = False
    # Whether the expression must be evaluated at its place, since it can end the program.
    can_trap: bool = False


class Access(NamedTuple):
    """A load or a store: the function of host.h, the type of the value, and a cast of it."""

    function: str
    kind: int
    cast: str = ""


def _comparisons(name, kind, signed):
    yield f"{name}.eqz", Form("!{0}", (kind,), I32, is_condition=True)
    operators = {"eq": "==", "ne": "!=", "lt": "<", "gt": ">", "le": "<=", "ge": ">="}
    for word in _COMPARED.split():
        left, right = (f"({signed}){{0}}", f"({signed}){{1}}") if word.endswith("_s") else ("{0}", "{1}")
        text = f"{left} {operators[word[:2]]} {right}"
        yield f"{name}.{word}", Form(text, (kind, kind), I32, is_condition=True)


def _arithmetic(name, kind, signed, bits):
    mask = bits - 1
    operators = {"add": "+", "sub": "-", "mul": "*", "and": "&", "or": "|", "xor": "^"}
    for word in ("clz", "ctz", "popcnt"):
        yield f"{name}.{word}", Form(f"{word}{bits}({{0}})", (kind,), kind)
    for word in ("div_s", "div_u", "rem_s", "rem_u"):
        yield f"{name}.{word}", Form(f"{word}{bits}({{0}}, {{1}})", (kind, kind), kind, can_trap=True)
    for word in ("rotl", "rotr"):
        yield f"{name}.{word}", Form(f"{word}{bits}({{0}}, {{1}})", (kind, kind), kind)
    for word, operator in operators.items():
        yield f"{name}.{word}", Form(f"{{0}} {operator} {{1}}", (kind, kind), kind)
    yield f"{name}.shl", Form(f"{{0}} << ({{1}} & {mask})", (kind, kind), kind)
    yield f"{name}.shr_u", Form(f"{{0}} >> ({{1}} & {mask})", (kind, kind), kind)
    yield f"{name}.shr_s", Form(f"({C_TYPES[kind]})(({signed}){{0}} >> ({{1}} & {mask}))", (kind, kind), kind)


def _conversions():
    yield "i32.wrap_i64", Form("(u32){0}", (I64,), I32)
    yield "i64.extend_i32_u", Form("(u64){0}", (I32,), I64)
    yield "i64.extend_i32_s", Form("(u64)(s64)(s32){0}", (I32,), I64)
    for bits in (8, 16):
        yield f"i32.extend{bits}_s", Form(f"(u32)(s32)(s{bits}){{0}}", (I32,), I32)
    for bits in (8, 16, 32):
        yield f"i64.extend{bits}_s", Form(f"(u64)(s64)(s{bits}){{0}}", (I64,), I64)


def _vectors():
    pairs = {"v128.and": "v_and", "v128.andnot": "v_andnot", "v128.or": "v_or", "v128.xor": "v_xor", "i8x16.eq": "v_eq8",
             "i8x16.lt_u": "v_lt8u", "i8x16.add": "v_add8", "i8x16.sub": "v_sub8"}
    for name, function in pairs.items():
        yield name, Form(f"{function}({{0}}, {{1}})", (V128, V128), V128)
    yield "v128.not", Form("v_not({0})", (V128,), V128)
    yield "i8x16.splat", Form("v_splat8({0})", (I32,), V128)
    yield "v128.any_true", Form("v_any({0})", (V128,), I32)
    yield "i8x16.bitmask", Form("v_bitmask8({0})", (V128,), I32)


# The instructions whose result is an expression of their operands.
FORMS: Dict[str, Form] = dict([
    *_comparisons("i32", I32, "s32"), *_comparisons("i64", I64, "s64"), *_arithmetic("i32", I32, "s32", 32),
    *_arithmetic("i64", I64, "s64", 64), *_conversions(), *_vectors(),
])

LOADS: Dict[str, Access] = {
    "i32.load": Access("load32", I32), "i64.load": Access("load64", I64), "v128.load": Access("v_load", V128),
    **{f"i32.load{bits}_u": Access(f"load{bits}", I32) for bits in (8, 16)},
    **{f"i32.load{bits}_s": Access(f"load{bits}", I32, f"(u32)(s32)(s{bits})") for bits in (8, 16)},
    **{f"i64.load{bits}_u": Access(f"load{bits}", I64, "(u64)") for bits in (8, 16, 32)},
    **{f"i64.load{bits}_s": Access(f"load{bits}", I64, f"(u64)(s64)(s{bits})") for bits in (8, 16, 32)},
}
STORES: Dict[str, Access] = {
    "i32.store": Access("store32", I32), "i64.store": Access("store64", I64), "v128.store": Access("v_store", V128),
    **{f"i32.store{bits}": Access(f"store{bits}", I32) for bits in (8, 16)},
    **{f"i64.store{bits}": Access(f"store{bits}", I64, "(u32)") for bits in (8, 16, 32)},
}
