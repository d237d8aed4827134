// A quotient rounded up, without signs: what arith-expand makes of it.
"builtin.module"() ({
  "func.func"() <{function_type = (i32, i32) -> i32, sym_name = "ceiling"}> ({
  ^bb0(%a: i32, %b: i32):
    %q = "arith.ceildivui"(%a, %b) : (i32, i32) -> i32
    "func.return"(%q) : (i32) -> ()
  }) : () -> ()
}) : () -> ()
