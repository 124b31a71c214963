; reads two bytes, puts the smaller one in front in memory, and returns whether it exchanged them
declare i32 @getchar()
define i32 @main() {
  %p = alloca [2 x i32]
  %q = getelementptr [2 x i32], ptr %p, i64 0, i64 1
  %a = call i32 @getchar()
  %b = call i32 @getchar()
  store i32 %a, ptr %p
  store i32 %b, ptr %q
  %c = icmp sgt i32 %a, %b
  br i1 %c, label %exchange, label %end
exchange:
  store i32 %b, ptr %p
  store i32 %a, ptr %q
  ret i32 1
end:
  ret i32 0
}
