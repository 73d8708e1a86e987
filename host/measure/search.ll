; `make measure` sets this behind the proved module, and compiles all of it as an archive is compiled: the search of the secret step and a loop over
; single bytes, each to be called by itself. A slice goes into a function of the module as its pointer and its length.

define i64 @search(ptr %x, i64 %len) #0 {
  %at = call i64 @"secret::leading_zeros"(ptr %x, i64 %len)
  ret i64 %at
}

define internal i64 @"bytes::leading_zeros"(ptr %x, i64 %len) #0 {
start:
  br label %loop

loop:
  %i = phi i64 [ 0, %start ], [ %next, %zero ]
  %more = icmp ult i64 %i, %len
  br i1 %more, label %look, label %end

look:
  %place = getelementptr inbounds nuw i8, ptr %x, i64 %i
  %byte = load i8, ptr %place, align 1
  %is_zero = icmp eq i8 %byte, 0
  br i1 %is_zero, label %zero, label %end

zero:
  %next = add nuw i64 %i, 1
  br label %loop

end:
  ret i64 %i
}

define i64 @by_bytes(ptr %x, i64 %len) #0 {
  %at = call i64 @"bytes::leading_zeros"(ptr %x, i64 %len)
  ret i64 %at
}

; The search has several callers, and so has the loop: what has one becomes a part of it, for size too.
define i64 @by_bytes_again(ptr %x, i64 %len) #0 {
  %at = call i64 @"bytes::leading_zeros"(ptr %x, i64 %len)
  ret i64 %at
}
