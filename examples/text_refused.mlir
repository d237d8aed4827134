// A value that nothing defines.
"builtin.module"() ({
  "func.func"() <{function_type = (i32) -> i32, sym_name = "f"}> ({
  ^bb0(%a: i32):
    "func.return"(%b) : (i32) -> ()
  }) : () -> ()
}) : () -> ()
