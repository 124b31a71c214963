; ModuleID = 'state_machine.c'
source_filename = "state_machine.c"
target datalayout = "e-m:e-p270:32:32-p271:32:32-p272:64:64-i64:64-f80:128-n8:16:32:64-S128"
target triple = "x86_64-pc-linux-gnu"

; Function Attrs: noinline nounwind optnone uwtable
define dso_local i32 @main() #0 {
  %1 = alloca i32, align 4
  %2 = alloca i32, align 4
  %3 = alloca i32, align 4
  store i32 0, ptr %1, align 4
  store i32 0, ptr %2, align 4
  %4 = call i32 @getchar()
  store i32 %4, ptr %3, align 4
  br label %5

5:                                                ; preds = %12, %0
  %6 = load i32, ptr %3, align 4
  %7 = icmp sge i32 %6, 0
  br i1 %7, label %8, label %14

8:                                                ; preds = %5
  %9 = load i32, ptr %2, align 4
  %10 = load i32, ptr %3, align 4
  %11 = call i32 @after(i32 noundef %9, i32 noundef %10)
  store i32 %11, ptr %2, align 4
  br label %12

12:                                               ; preds = %8
  %13 = call i32 @getchar()
  store i32 %13, ptr %3, align 4
  br label %5, !llvm.loop !5

14:                                               ; preds = %5
  %15 = load i32, ptr %2, align 4
  ret i32 %15
}

declare i32 @getchar() #1

; Function Attrs: noinline nounwind optnone uwtable
define internal i32 @after(i32 noundef %0, i32 noundef %1) #0 {
  %3 = alloca i32, align 4
  %4 = alloca i32, align 4
  %5 = alloca i32, align 4
  store i32 %0, ptr %4, align 4
  store i32 %1, ptr %5, align 4
  %6 = load i32, ptr %4, align 4
  switch i32 %6, label %28 [
    i32 0, label %7
    i32 1, label %12
    i32 2, label %23
  ]

7:                                                ; preds = %2
  %8 = load i32, ptr %5, align 4
  switch i32 %8, label %11 [
    i32 111, label %9
    i32 108, label %10
  ]

9:                                                ; preds = %7
  store i32 1, ptr %3, align 4
  br label %29

10:                                               ; preds = %7
  store i32 2, ptr %3, align 4
  br label %29

11:                                               ; preds = %7
  store i32 0, ptr %3, align 4
  br label %29

12:                                               ; preds = %2
  %13 = load i32, ptr %5, align 4
  %14 = icmp eq i32 %13, 99
  br i1 %14, label %15, label %16

15:                                               ; preds = %12
  br label %21

16:                                               ; preds = %12
  %17 = load i32, ptr %5, align 4
  %18 = icmp eq i32 %17, 108
  %19 = zext i1 %18 to i64
  %20 = select i1 %18, i32 3, i32 1
  br label %21

21:                                               ; preds = %16, %15
  %22 = phi i32 [ 0, %15 ], [ %20, %16 ]
  store i32 %22, ptr %3, align 4
  br label %29

23:                                               ; preds = %2
  %24 = load i32, ptr %5, align 4
  %25 = icmp eq i32 %24, 117
  %26 = zext i1 %25 to i64
  %27 = select i1 %25, i32 0, i32 2
  store i32 %27, ptr %3, align 4
  br label %29

28:                                               ; preds = %2
  store i32 3, ptr %3, align 4
  br label %29

29:                                               ; preds = %28, %23, %21, %11, %10, %9
  %30 = load i32, ptr %3, align 4
  ret i32 %30
}

attributes #0 = { noinline nounwind optnone uwtable "frame-pointer"="all" "min-legal-vector-width"="0" "no-trapping-math"="true" "stack-protector-buffer-size"="8" "target-cpu"="x86-64" "target-features"="+cx8,+fxsr,+mmx,+sse,+sse2,+x87" "tune-cpu"="generic" }
attributes #1 = { "frame-pointer"="all" "no-trapping-math"="true" "stack-protector-buffer-size"="8" "target-cpu"="x86-64" "target-features"="+cx8,+fxsr,+mmx,+sse,+sse2,+x87" "tune-cpu"="generic" }

!llvm.module.flags = !{!0, !1, !2, !3, !4}

!0 = !{i32 1, !"wchar_size", i32 4}
!1 = !{i32 7, !"PIC Level", i32 2}
!2 = !{i32 7, !"PIE Level", i32 2}
!3 = !{i32 7, !"uwtable", i32 1}
!4 = !{i32 7, !"frame-pointer", i32 2}
!5 = distinct !{!5, !6}
!6 = !{!"llvm.loop.mustprogress"}
