// One of two numbers over blocks: what convert-cf-to-llvm makes of branches.
"builtin.module"() ({
  "func.func"() <{function_type = (i32, i32, i1) -> i32, sym_name = "choose"}> ({
  ^bb0(%a: i32, %b: i32, %c: i1):
    "cf.cond_br"(%c, %a, %b)[^bb1, ^bb1] <{operandSegmentSizes = array<i32: 1, 1, 1>}> : (i1, i32, i32) -> ()
  ^bb1(%chosen: i32):
    "func.return"(%chosen) : (i32) -> ()
  }) : () -> ()
}) : () -> ()
