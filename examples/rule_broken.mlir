// A sum whose operands have other types than it.
"builtin.module"() ({
  "func.func"() <{function_type = (i32) -> i64, sym_name = "f"}> ({
  ^bb0(%a: i32):
    %b = "arith.addi"(%a, %a) : (i32, i32) -> i64
    "func.return"(%b) : (i64) -> ()
  }) : () -> ()
}) : () -> ()
