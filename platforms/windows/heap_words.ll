; The heap's answers as the proved code takes them. Both have two words, but C on Windows returns them through a pointer, and the
; proved code in two registers. Here the proved code's functions, under other names, call those of C in bindings/c/heap.c.

target triple = "x86_64-w64-windows-gnu"

%tried = type { i64, i64 }

declare void @rattle_alloc(ptr sret(%tried), i64, i64)
declare void @rattle_realloc(ptr sret(%tried), ptr, i64, i64, i64)

define %tried @module_alloc(i64 %length, i64 %alignment) {
  %place = alloca %tried
  store %tried zeroinitializer, ptr %place
  call void @rattle_alloc(ptr sret(%tried) %place, i64 %length, i64 %alignment)
  %answer = load %tried, ptr %place
  ret %tried %answer
}

define %tried @module_realloc(ptr %block, i64 %kept, i64 %length, i64 %alignment) {
  %place = alloca %tried
  store %tried zeroinitializer, ptr %place
  call void @rattle_realloc(ptr sret(%tried) %place, ptr %block, i64 %kept, i64 %length, i64 %alignment)
  %answer = load %tried, ptr %place
  ret %tried %answer
}
