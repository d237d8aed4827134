// A quotient rounded down, for which convert-arith-to-llvm has no pattern; the other function is lowered.
"builtin.module"() ({
  "func.func"() <{function_type = (i32, i32) -> i32, sym_name = "floor"}> ({
  ^bb0(%a: i32, %b: i32):
    %q = "arith.floordivsi"(%a, %b) : (i32, i32) -> i32
    "func.return"(%q) : (i32) -> ()
  }) : () -> ()
  "func.func"() <{function_type = (i32, i32) -> i32, sym_name = "sum"}> ({
  ^bb0(%a: i32, %b: i32):
    %s = "arith.addi"(%a, %b) : (i32, i32) -> i32
    "func.return"(%s) : (i32) -> ()
  }) : () -> ()
}) : () -> ()
