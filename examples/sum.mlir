"builtin.module"() ({
  "func.func"() <{function_type = (i32) -> i32, sym_name = "tick", sym_visibility = "private"}> ({
  }) : () -> ()
  "func.func"() <{function_type = (memref<?xi32>, index) -> (), sym_name = "fill"}> ({
  ^bb0(%arg4: memref<?xi32>, %arg5: index):
    %10 = "arith.constant"() <{value = 0 : index}> : () -> index
    %11 = "arith.constant"() <{value = 1 : index}> : () -> index
    "scf.for"(%10, %arg5, %11) ({
    ^bb0(%arg6: index):
      %12 = "arith.index_cast"(%arg6) : (index) -> i32
      %13 = "func.call"(%12) <{callee = @tick}> : (i32) -> i32
      %14 = "arith.addi"(%13, %12) <{overflowFlags = #arith.overflow<nsw>}> : (i32, i32) -> i32
      "memref.store"(%14, %arg4, %arg6) : (i32, memref<?xi32>, index) -> ()
      "scf.yield"() : () -> ()
    }) : (index, index, index) -> ()
    "func.return"() : () -> ()
  }) : () -> ()
  "func.func"() <{function_type = (index) -> i32, sym_name = "sum"}> ({
  ^bb0(%arg0: index):
    %0 = "arith.constant"() <{value = 0 : index}> : () -> index
    %1 = "arith.constant"() <{value = 1 : index}> : () -> index
    %2 = "arith.constant"() <{value = 0 : i32}> : () -> i32
    %3 = "memref.alloc"(%arg0) <{operandSegmentSizes = array<i32: 1, 0>}> : (index) -> memref<?xi32>
    "func.call"(%3, %arg0) <{callee = @fill}> : (memref<?xi32>, index) -> ()
    %4:2 = "scf.for"(%0, %arg0, %1, %2, %2) ({
    ^bb0(%arg1: index, %arg2: i32, %arg3: i32):
      %6 = "memref.load"(%3, %arg1) : (memref<?xi32>, index) -> i32
      %7 = "arith.addi"(%arg2, %6) <{overflowFlags = #arith.overflow<none>}> : (i32, i32) -> i32
      %8 = "arith.cmpi"(%6, %arg3) <{predicate = 4 : i64}> : (i32, i32) -> i1
      %9 = "scf.if"(%8) ({
        "scf.yield"(%6) : (i32) -> ()
      }, {
        "scf.yield"(%arg3) : (i32) -> ()
      }) : (i1) -> i32
      "scf.yield"(%7, %9) : (i32, i32) -> ()
    }) : (index, index, index, i32, i32) -> (i32, i32)
    "memref.dealloc"(%3) : (memref<?xi32>) -> ()
    %5 = "arith.subi"(%4#0, %4#1) <{overflowFlags = #arith.overflow<none>}> : (i32, i32) -> i32
    "func.return"(%5) : (i32) -> ()
  }) : () -> ()
}) : () -> ()

