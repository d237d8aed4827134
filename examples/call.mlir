// A call of a function that is declared alone: what convert-func-to-llvm makes of functions, calls and returns.
"builtin.module"() ({
  "func.func"() <{function_type = (i32) -> i32, sym_name = "outside", sym_visibility = "private"}> ({
  }) : () -> ()
  "func.func"() <{function_type = (i32) -> i32, sym_name = "inside"}> ({
  ^bb0(%a: i32):
    %r = "func.call"(%a) <{callee = @outside}> : (i32) -> i32
    "func.return"(%r) : (i32) -> ()
  }) : () -> ()
}) : () -> ()
