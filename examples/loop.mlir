// The sum of b taken n times, from a on: what convert-scf-to-cf makes of a loop.
"builtin.module"() ({
  "func.func"() <{function_type = (i32, i32, index) -> i32, sym_name = "times"}> ({
  ^bb0(%a: i32, %b: i32, %n: index):
    %zero = "arith.constant"() <{value = 0 : index}> : () -> index
    %one = "arith.constant"() <{value = 1 : index}> : () -> index
    %sum = "scf.for"(%zero, %n, %one, %a) ({
    ^bb0(%i: index, %so_far: i32):
      %next = "arith.addi"(%so_far, %b) : (i32, i32) -> i32
      "scf.yield"(%next) : (i32) -> ()
    }) : (index, index, index, i32) -> i32
    "func.return"(%sum) : (i32) -> ()
  }) : () -> ()
}) : () -> ()
