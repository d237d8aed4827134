// A cell of memory that is written, read and freed: what finalize-memref-to-llvm makes of buffers.
"builtin.module"() ({
  "func.func"() <{function_type = (i32) -> i32, sym_name = "through_memory"}> ({
  ^bb0(%a: i32):
    %cell = "memref.alloc"() <{operandSegmentSizes = array<i32: 0, 0>}> : () -> memref<1xi32>
    %zero = "arith.constant"() <{value = 0 : index}> : () -> index
    "memref.store"(%a, %cell, %zero) : (i32, memref<1xi32>, index) -> ()
    %b = "memref.load"(%cell, %zero) : (memref<1xi32>, index) -> i32
    "memref.dealloc"(%cell) : (memref<1xi32>) -> ()
    "func.return"(%b) : (i32) -> ()
  }) : () -> ()
}) : () -> ()
