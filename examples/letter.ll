declare i32 @getchar()

define i32 @main() {
entry:
  %c = call i32 @getchar()
  %capital = icmp eq i32 %c, 65
  br i1 %capital, label %yes, label %no
yes:
  ret i32 1
no:
  %low = icmp ult i32 %c, 16
  %narrow = trunc i32 %c to i8
  %rest = urem i8 100, %narrow
  %wide = zext i8 %rest to i32
  %status = select i1 %low, i32 %wide, i32 2
  ret i32 %status
}
