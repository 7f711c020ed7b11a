"""c/translate.py takes what is called, and only modules whose use of the stack it knows."""
import pytest

import translate
from tree import cases

BEGIN = """{{
  FUNC_PROLOGUE;
  u64 var_j0, var_j1;
  var_j0 = instance->w2c_0x5F_stack_pointer;
"""
TAKES = BEGIN + """  var_j1 = {0}ull;
  var_j0 -= var_j1;
  var_l0 = var_j0;
  instance->w2c_0x5F_stack_pointer = var_j0;
"""
GIVES_BACK = """  var_j0 = var_l0;
  var_j1 = {0}ull;
  var_j0 += var_j1;
  instance->w2c_0x5F_stack_pointer = var_j0;
}}
"""
LEAF = BEGIN + """  var_j1 = {0}ull;
  var_j0 -= var_j1;
  var_l0 = var_j0;
}}
"""
TAKES_NONE = BEGIN + """  var_l0 = var_j0;
  var_j1 = 16ull;
  var_i0 = (u64)((s64)var_j0 < (s64)var_j1);
  if (var_i0) {{goto var_B0;}}
  var_j0 = var_l0;
  instance->w2c_0x5F_stack_pointer = var_j0;
}}
"""


def functions_of(bodies):
    """Functions as translate.py has them, of a body and the names that it calls."""
    return {f"w2c_lockreplay_{name}": ("", body.format(size) + "".join(
        f"  w2c_lockreplay_{other}(instance);\n" for other in called.split()))
        for name, (body, size, called) in bodies.items()}


@cases("bodies, depth", {
    "one": ({"a": (TAKES + GIVES_BACK, 48, "")}, 48),
    "the deeper of two": ({"a": (TAKES + GIVES_BACK, 48, "b c"), "b": (LEAF, 32, ""),
                           "c": (TAKES + GIVES_BACK, 16, "d"), "d": (LEAF, 32, "")}, 96),
    "called twice": ({"a": (TAKES + GIVES_BACK, 48, "b b"), "b": (LEAF, 32, "")}, 80),
    "one that takes none": ({"a": (TAKES_NONE, 0, "b"), "b": (LEAF, 32, "")}, 32),
    "one without a stack": ({"a": ("{{\n}}\n", 0, "b"), "b": (LEAF, 64, "")}, 64),
})
def test_depth(bodies, depth):
    functions = functions_of(bodies)
    assert translate.deepest(list(functions), functions, translate.calls_of(functions)) == depth


@cases("bodies, said", {
    "calls itself": ({"a": (TAKES + GIVES_BACK, 48, "b"), "b": (LEAF, 32, "a")}, "calls itself"),
    "a size that is computed": (
        {"a": (BEGIN + "  var_j0 -= var_l1;\n}}\n", 0, "")}, "in another way"),
    "more than it took": ({"a": ((TAKES + GIVES_BACK).replace("+= ", "+= 1 + "), 48, "")},
                          "in another way"),
    "another size": ({"a": (TAKES + GIVES_BACK.replace("{0}", "32"), 48, "")}, "in another way"),
    "twice": ({"a": (TAKES + TAKES[3:] + GIVES_BACK, 48, "")}, "in another way"),
    "a pointer": ({"a": ("{{\n  CALL_INDIRECT(x);\n}}\n", 0, "")}, "by a pointer"),
})
def test_unknown(bodies, said):
    functions = functions_of(bodies)
    with pytest.raises(translate.Unknown, match=said):
        translate.deepest(list(functions), functions, translate.calls_of(functions))


def test_called():
    calls = {"a": ["c"], "b": [], "c": ["d"], "d": [], "e": ["a"]}
    assert translate.called_by(["d", "a"], calls) == ["a", "c", "d"]


CODE = """static void init_globals(w2c_lockreplay* instance) {{
  instance->w2c_0x5F_stack_pointer = {stack}ull;
  instance->w2c_0x5F_heap_base = {heap}ull;
}}
static const u8 data_segment_data_d0[] = {{
  0x00, 0x01, 0x02,
}};
  LOAD_DATA(instance->w2c_memory, {data}u, data_segment_data_d0, 3);
"""


@cases("places, is_known", {
    "at the stack": ({"stack": 1024, "data": 1024, "heap": 1040}, True),
    "apart from the stack": ({"stack": 1024, "data": 1040, "heap": 1056}, False),
    "zeros behind": ({"stack": 1024, "data": 1024, "heap": 1056}, False),
})
def test_data(places, is_known):
    if is_known:
        assert translate.data_of(CODE.format(**places))[0] == 1024
        return
    with pytest.raises(translate.Unknown, match="do not reach"):
        translate.data_of(CODE.format(**places))
