#!/usr/bin/env python3
"""Makes an LLVM module for wasm64 from the module that the kit made of a static library for x86-64.

    retarget.py IN.ll OUT.ll EXPORT..

The result is like the modules that the kit itself makes for wasm64. It has another target and processor. Each function with
locals first tests that they fit into the stack, and traps if they don't. Each export is entered by a function that refuses to
run within another call, or after a call that trapped. No proof covers any of this.
"""
import re
import sys

LAYOUT = "e-m:e-p:64:64-p10:8:8-p20:8:8-i64:64-i128:128-n32:64-S128-ni:1:10:20"
TRIPLE = "wasm64-unknown-unknown"
NO_LIBRARY = '"no-builtin-bcmp" "no-builtin-memcmp" "no-builtin-strlen"'
PROCESSOR = f'{NO_LIBRARY} "target-cpu"="lime1"'
OF_X86 = '"target-cpu"="x86-64-v2"'
LEAST_ADDRESS = 16
FIRST_ATTRIBUTES = 800  # a number that no attribute group of the module has

STACK_TEST = f"""
  %stack.frame = call ptr @llvm.frameaddress.p0(i32 0)
  %stack.address = ptrtoaddr ptr %stack.frame to i64
  %stack.isspent = icmp slt i64 %stack.address, {LEAST_ADDRESS}
  br i1 %stack.isspent, label %stack.trap, label %stack.ok

stack.ok:
"""
STACK_TRAP = """
stack.trap:
  call void @llvm.trap()
  unreachable
}"""
DECLARATIONS = f"""
declare noundef zeroext i1 @__rattle_enter() #{FIRST_ATTRIBUTES}
declare void @__rattle_leave() #{FIRST_ATTRIBUTES}
declare void @__rattle_trap() #{FIRST_ATTRIBUTES}
attributes #{FIRST_ATTRIBUTES} = {{ nounwind }}
"""
ENTRANCE = """
define noundef zeroext {result} @{name}({parameters}) #{number} {{
start:
  %entered = call i1 @__rattle_enter()
  br i1 %entered, label %refuse, label %run

refuse:
  call void @__rattle_trap()
  unreachable

run:
  %answer = call {result} @"rattle::export {name}"({arguments})
  call void @__rattle_leave()
  ret {result} %answer
}}
attributes #{number} = {{ nounwind {processor} "wasm-export-name"="{name}" }}
"""


def fail(what):
    sys.exit(f"retarget.py: {what}")


def retargeted(module):
    """Returns the module for the other target; what speaks of x86-64 in other words is refused."""
    if "llvm.x86" in module or " asm " in module:
        fail("the module has instructions of x86-64")
    module = re.sub(r"^target datalayout = .*$", f'target datalayout = "{LAYOUT}"', module, flags=re.M)
    module = re.sub(r"^target triple = .*$", f'target triple = "{TRIPLE}"', module, flags=re.M)
    module = re.sub(r"^\s*uselistorder .*\n", "", module, flags=re.M)
    return module.replace(OF_X86, PROCESSOR)


def locals_end(lines):
    """Returns the number of the line behind the last local of the first block, or None where it has none."""
    end = None
    for number, line in enumerate(lines):
        if re.match(r'[\w."]+:', line):
            break
        if " = alloca " in line:
            end = number + 1
    return end


def tested(function):
    """Returns the function with the test of the stack behind its locals, where it has some."""
    head, body = function.split("\nstart:\n", 1)
    lines = body.split("\n")
    end = locals_end(lines)
    if end is None:
        return function
    rest = "\n".join(lines[end:]).removesuffix("}").replace("%start ]", "%stack.ok ]")
    return f"{head}\nstart:\n" + "\n".join(lines[:end]) + STACK_TEST + rest + STACK_TRAP


def declared(module, declaration):
    """Returns the module with the declaration, which it may have already."""
    name = re.search(r"@[\w.]+", declaration)[0]
    has = re.search(rf"^declare [^\n]*{re.escape(name)}\(", module, flags=re.M)
    return module if has else f"{module}\n{declaration}\n"


def with_stack_tests(module):
    module = re.sub(r"^define [^\n]*\{\nstart:\n.*?^\}", lambda it: tested(it[0]), module, flags=re.M | re.S)
    module = declared(module, "declare ptr @llvm.frameaddress.p0(i32 immarg)")
    return declared(module, "declare void @llvm.trap()")


def exported(module, name, number):
    """Returns the module with the export renamed, and an entrance under its name."""
    found = re.search(rf"^define noundef (i\d+) @{name}\(([^\n]*)\) #(\d+) \{{", module, flags=re.M)
    if not found:
        fail(f"the module has no export {name}")
    result, parameters, attributes = found.groups()
    inner = f'define internal noundef zeroext {result} @"rattle::export {name}"({parameters}) noinline #{attributes} {{'
    arguments = re.sub(r" noundef| zeroext", "", parameters)
    words = {"name": name, "result": result, "parameters": parameters, "arguments": arguments}
    return module.replace(found[0], inner) + ENTRANCE.format(**words, number=number, processor=PROCESSOR)


def main():
    source, made, *exports = sys.argv[1:]
    with open(source) as file:
        module = with_stack_tests(retargeted(file.read())) + DECLARATIONS
    for number, name in enumerate(exports, FIRST_ATTRIBUTES + 1):
        module = exported(module, name, number)
    with open(made, "w") as file:
        file.write(module)


if __name__ == "__main__":
    main()
