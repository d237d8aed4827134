// A loop with a call and memory: each round adds the square of its number to a cell. full-convert-to-llvm lowers it whole.
"builtin.module"() ({
  "func.func"() <{function_type = (i64) -> i64, sym_name = "square"}> ({
  ^bb0(%a: i64):
    %s = "arith.muli"(%a, %a) : (i64, i64) -> i64
    "func.return"(%s) : (i64) -> ()
  }) : () -> ()
  "func.func"() <{function_type = (index) -> i64, sym_name = "total"}> ({
  ^bb0(%n: index):
    %zero = "arith.constant"() <{value = 0 : index}> : () -> index
    %one = "arith.constant"() <{value = 1 : index}> : () -> index
    %none = "arith.constant"() <{value = 0 : i64}> : () -> i64
    %cell = "memref.alloc"() <{operandSegmentSizes = array<i32: 0, 0>}> : () -> memref<1xi64>
    "memref.store"(%none, %cell, %zero) : (i64, memref<1xi64>, index) -> ()
    "scf.for"(%zero, %n, %one) ({
    ^bb0(%i: index):
      %k = "arith.index_cast"(%i) : (index) -> i64
      %s = "func.call"(%k) <{callee = @square}> : (i64) -> i64
      %before = "memref.load"(%cell, %zero) : (memref<1xi64>, index) -> i64
      %after = "arith.addi"(%before, %s) : (i64, i64) -> i64
      "memref.store"(%after, %cell, %zero) : (i64, memref<1xi64>, index) -> ()
      "scf.yield"() : () -> ()
    }) : (index, index, index) -> ()
    %all = "memref.load"(%cell, %zero) : (memref<1xi64>, index) -> i64
    "memref.dealloc"(%cell) : (memref<1xi64>) -> ()
    "func.return"(%all) : (i64) -> ()
  }) : () -> ()
}) : () -> ()
