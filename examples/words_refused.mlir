// Adds one to its argument.
"builtin.module"() ({
  "func.func"() <{function_type = (i32) -> i32, sym_name = "inc"}> ({
  ^entry(%x: i32):
    %one = "arith.constant"() <{value = 1 : i32}> : () -> i32
    %sum = "arith.addi"(%x, %one) <{overflowFlags = #arith.overflow<none>}> : (i32, i32) -> i32
    "func.return"(%sum) : (i32) -> ()
  }) : () -> ()
}) : () -> ()
