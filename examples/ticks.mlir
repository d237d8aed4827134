// A run of the source and of what it is lowered to: a loop that calls a declared function with the number of each round, and adds up these numbers.
"builtin.module"() ({
  "func.func"() <{function_type = (i64) -> i64, sym_name = "tick", sym_visibility = "private"}> ({
  }) : () -> ()
  "func.func"() <{function_type = (index) -> i64, sym_name = "ticks"}> ({
  ^bb0(%n: index):
    %zero = "arith.constant"() <{value = 0 : index}> : () -> index
    %one = "arith.constant"() <{value = 1 : index}> : () -> index
    %none = "arith.constant"() <{value = 0 : i64}> : () -> i64
    %all = "scf.for"(%zero, %n, %one, %none) ({
    ^bb0(%i: index, %sum: i64):
      %k = "arith.index_cast"(%i) : (index) -> i64
      %answer = "func.call"(%k) <{callee = @tick}> : (i64) -> i64
      %next = "arith.addi"(%sum, %k) : (i64, i64) -> i64
      "scf.yield"(%next) : (i64) -> ()
    }) : (index, index, index, i64) -> i64
    "func.return"(%all) : (i64) -> ()
  }) : () -> ()
}) : () -> ()
