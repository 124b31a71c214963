; 7 and 35 are added and compared, and the larger side is returned
define i32 @main() {
entry:
  %sum = add i32 7, 35
  %large = icmp ugt i32 %sum, 40
  br i1 %large, label %yes, label %no
yes:
  ret i32 %sum
no:
  ret i32 0
}
