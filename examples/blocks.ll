; The size in bytes of a block of malloc, for the realloc of examples/libc.c: the greatest offset
; that is not past the block's end. A `getelementptr inbounds` past it is poison, and lli's `freeze`
; makes the null pointer of that. So it is for lli alone; another interpreter may answer otherwise.
define i64 @malloc_usable_size(ptr %block) {
  br label %try

try:
  %bit = phi i64 [ 268435456, %0 ], [ %half, %try ]
  %size = phi i64 [ 0, %0 ], [ %next, %try ]
  %offset = add i64 %size, %bit
  %place = getelementptr inbounds i8, ptr %block, i64 %offset
  %frozen = freeze ptr %place
  %is_past = icmp eq ptr %frozen, null
  %next = select i1 %is_past, i64 %size, i64 %offset
  %half = lshr i64 %bit, 1
  %is_last = icmp eq i64 %half, 0
  br i1 %is_last, label %done, label %try

done:
  ret i64 %next
}
