// Two casts that undo each other: reconcile-unrealized-casts takes both out.
"builtin.module"() ({
  "func.func"() <{function_type = (index) -> index, sym_name = "there_and_back"}> ({
  ^bb0(%a: index):
    %b = "builtin.unrealized_conversion_cast"(%a) : (index) -> i64
    %c = "builtin.unrealized_conversion_cast"(%b) : (i64) -> index
    "func.return"(%c) : (index) -> ()
  }) : () -> ()
}) : () -> ()
