; What targets/heap.c is for processors of 64 bits, for those of 32: tools/retarget puts it behind the module, which counts in 64
; bits there too. What has more than 2^31 - 1 bytes is refused. The library asks for alignments up to 16, and no access of the
; module that tools/retarget writes counts on more than the 8 that malloc gives; an alignment above 16 is refused.

@.carried.nothing = internal global i8 0

declare ptr @malloc(i32) nobuiltin nounwind
declare ptr @realloc(ptr, i32) nobuiltin nounwind
declare void @free(ptr) nobuiltin nounwind

define internal { i64, i64 } @.carried.answer(ptr %block) nounwind {
  %is = icmp ne ptr %block, null
  %given = select i1 %is, ptr %block, ptr @.carried.nothing
  %one = zext i1 %is to i64
  %address = ptrtoint ptr %given to i64
  %half = insertvalue { i64, i64 } poison, i64 %one, 0
  %answer = insertvalue { i64, i64 } %half, i64 %address, 1
  ret { i64, i64 } %answer
}

; How many bytes are asked for; 0 where they are refused.
define internal i32 @.carried.asked(i64 %bytes, i64 %align) nounwind {
  %none = icmp eq i64 %bytes, 0
  %wanted = select i1 %none, i64 %align, i64 %bytes
  %many = icmp ugt i64 %wanted, 2147483647
  %wide = icmp ugt i64 %align, 16
  %refused = or i1 %many, %wide
  %few = trunc i64 %wanted to i32
  %asked = select i1 %refused, i32 0, i32 %few
  ret i32 %asked
}

define internal { i64, i64 } @rattle_alloc(i64 %bytes, i64 %align) nounwind {
start:
  %asked = call i32 @.carried.asked(i64 %bytes, i64 %align)
  %refused = icmp eq i32 %asked, 0
  br i1 %refused, label %end, label %ask
ask:
  %made = call ptr @malloc(i32 %asked)
  br label %end
end:
  %block = phi ptr [ null, %start ], [ %made, %ask ]
  %answer = call { i64, i64 } @.carried.answer(ptr %block)
  ret { i64, i64 } %answer
}

define internal { i64, i64 } @rattle_realloc(ptr %old, i64 %kept, i64 %bytes, i64 %align) nounwind {
start:
  %asked = call i32 @.carried.asked(i64 %bytes, i64 %align)
  %refused = icmp eq i32 %asked, 0
  br i1 %refused, label %end, label %ask
ask:
  %made = call ptr @realloc(ptr %old, i32 %asked)
  br label %end
end:
  %block = phi ptr [ null, %start ], [ %made, %ask ]
  %answer = call { i64, i64 } @.carried.answer(ptr %block)
  ret { i64, i64 } %answer
}

define internal void @rattle_dealloc(ptr %block) nounwind {
  call void @free(ptr %block)
  ret void
}
