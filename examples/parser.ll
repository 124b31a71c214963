; ModuleID = 'parser.c'
source_filename = "parser.c"
target datalayout = "e-m:e-p270:32:32-p271:32:32-p272:64:64-i64:64-f80:128-n8:16:32:64-S128"
target triple = "x86_64-pc-linux-gnu"

@next = internal global i32 0, align 4

; Function Attrs: noinline nounwind optnone uwtable
define dso_local i32 @main() #0 {
  %1 = alloca i32, align 4
  %2 = alloca i32, align 4
  store i32 0, ptr %1, align 4
  %3 = call i32 @getchar()
  store i32 %3, ptr @next, align 4
  %4 = call i32 @sum()
  store i32 %4, ptr %2, align 4
  %5 = load i32, ptr %2, align 4
  %6 = icmp slt i32 %5, 0
  br i1 %6, label %10, label %7

7:                                                ; preds = %0
  %8 = load i32, ptr @next, align 4
  %9 = icmp sge i32 %8, 0
  br i1 %9, label %10, label %11

10:                                               ; preds = %7, %0
  br label %13

11:                                               ; preds = %7
  %12 = load i32, ptr %2, align 4
  br label %13

13:                                               ; preds = %11, %10
  %14 = phi i32 [ 200, %10 ], [ %12, %11 ]
  ret i32 %14
}

declare i32 @getchar() #1

; Function Attrs: noinline nounwind optnone uwtable
define internal i32 @sum() #0 {
  %1 = alloca i32, align 4
  %2 = alloca i32, align 4
  %3 = alloca i32, align 4
  %4 = call i32 @digit()
  store i32 %4, ptr %2, align 4
  br label %5

5:                                                ; preds = %19, %0
  %6 = load i32, ptr %2, align 4
  %7 = icmp sge i32 %6, 0
  br i1 %7, label %8, label %11

8:                                                ; preds = %5
  %9 = load i32, ptr @next, align 4
  %10 = icmp eq i32 %9, 43
  br label %11

11:                                               ; preds = %8, %5
  %12 = phi i1 [ false, %5 ], [ %10, %8 ]
  br i1 %12, label %13, label %23

13:                                               ; preds = %11
  %14 = call i32 @getchar()
  store i32 %14, ptr @next, align 4
  %15 = call i32 @digit()
  store i32 %15, ptr %3, align 4
  %16 = load i32, ptr %3, align 4
  %17 = icmp slt i32 %16, 0
  br i1 %17, label %18, label %19

18:                                               ; preds = %13
  store i32 -1, ptr %1, align 4
  br label %25

19:                                               ; preds = %13
  %20 = load i32, ptr %3, align 4
  %21 = load i32, ptr %2, align 4
  %22 = add nsw i32 %21, %20
  store i32 %22, ptr %2, align 4
  br label %5, !llvm.loop !5

23:                                               ; preds = %11
  %24 = load i32, ptr %2, align 4
  store i32 %24, ptr %1, align 4
  br label %25

25:                                               ; preds = %23, %18
  %26 = load i32, ptr %1, align 4
  ret i32 %26
}

; Function Attrs: noinline nounwind optnone uwtable
define internal i32 @digit() #0 {
  %1 = alloca i32, align 4
  %2 = alloca i32, align 4
  %3 = load i32, ptr @next, align 4
  %4 = icmp slt i32 %3, 48
  br i1 %4, label %8, label %5

5:                                                ; preds = %0
  %6 = load i32, ptr @next, align 4
  %7 = icmp sgt i32 %6, 57
  br i1 %7, label %8, label %9

8:                                                ; preds = %5, %0
  store i32 -1, ptr %1, align 4
  br label %14

9:                                                ; preds = %5
  %10 = load i32, ptr @next, align 4
  %11 = sub nsw i32 %10, 48
  store i32 %11, ptr %2, align 4
  %12 = call i32 @getchar()
  store i32 %12, ptr @next, align 4
  %13 = load i32, ptr %2, align 4
  store i32 %13, ptr %1, align 4
  br label %14

14:                                               ; preds = %9, %8
  %15 = load i32, ptr %1, align 4
  ret i32 %15
}

attributes #0 = { noinline nounwind optnone uwtable "frame-pointer"="all" "min-legal-vector-width"="0" "no-trapping-math"="true" "stack-protector-buffer-size"="8" "target-cpu"="x86-64" "target-features"="+cx8,+fxsr,+mmx,+sse,+sse2,+x87" "tune-cpu"="generic" }
attributes #1 = { "frame-pointer"="all" "no-trapping-math"="true" "stack-protector-buffer-size"="8" "target-cpu"="x86-64" "target-features"="+cx8,+fxsr,+mmx,+sse,+sse2,+x87" "tune-cpu"="generic" }

!llvm.module.flags = !{!0, !1, !2, !3, !4}

!0 = !{i32 1, !"wchar_size", i32 4}
!1 = !{i32 7, !"PIC Level", i32 2}
!2 = !{i32 7, !"PIE Level", i32 2}
!3 = !{i32 7, !"uwtable", i32 1}
!4 = !{i32 7, !"frame-pointer", i32 2}
!5 = distinct !{!5, !6}
!6 = !{!"llvm.loop.mustprogress"}
