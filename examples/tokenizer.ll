; ModuleID = 'tokenizer.c'
source_filename = "tokenizer.c"
target datalayout = "e-m:e-p270:32:32-p271:32:32-p272:64:64-i64:64-f80:128-n8:16:32:64-S128"
target triple = "x86_64-pc-linux-gnu"

; Function Attrs: noinline nounwind optnone uwtable
define dso_local i32 @main() #0 {
  %1 = alloca i32, align 4
  %2 = alloca i32, align 4
  %3 = alloca i32, align 4
  %4 = alloca i32, align 4
  %5 = alloca i32, align 4
  store i32 0, ptr %1, align 4
  store i32 0, ptr %2, align 4
  store i32 0, ptr %3, align 4
  %6 = call i32 @getchar()
  store i32 %6, ptr %4, align 4
  br label %7

7:                                                ; preds = %25, %0
  %8 = load i32, ptr %4, align 4
  %9 = icmp sge i32 %8, 0
  br i1 %9, label %10, label %27

10:                                               ; preds = %7
  %11 = load i32, ptr %4, align 4
  %12 = call i32 @kind_of(i32 noundef %11)
  store i32 %12, ptr %5, align 4
  %13 = load i32, ptr %5, align 4
  %14 = load i32, ptr %2, align 4
  %15 = icmp ne i32 %13, %14
  br i1 %15, label %19, label %16

16:                                               ; preds = %10
  %17 = load i32, ptr %5, align 4
  %18 = icmp eq i32 %17, 4
  br i1 %18, label %19, label %23

19:                                               ; preds = %16, %10
  %20 = load i32, ptr %5, align 4
  call void @tell(i32 noundef %20)
  %21 = load i32, ptr %3, align 4
  %22 = add nsw i32 %21, 1
  store i32 %22, ptr %3, align 4
  br label %23

23:                                               ; preds = %19, %16
  %24 = load i32, ptr %5, align 4
  store i32 %24, ptr %2, align 4
  br label %25

25:                                               ; preds = %23
  %26 = call i32 @getchar()
  store i32 %26, ptr %4, align 4
  br label %7, !llvm.loop !5

27:                                               ; preds = %7
  %28 = load i32, ptr %3, align 4
  ret i32 %28
}

declare i32 @getchar() #1

; Function Attrs: noinline nounwind optnone uwtable
define internal i32 @kind_of(i32 noundef %0) #0 {
  %2 = alloca i32, align 4
  %3 = alloca i32, align 4
  store i32 %0, ptr %3, align 4
  %4 = load i32, ptr %3, align 4
  %5 = icmp sge i32 %4, 48
  br i1 %5, label %6, label %10

6:                                                ; preds = %1
  %7 = load i32, ptr %3, align 4
  %8 = icmp sle i32 %7, 57
  br i1 %8, label %9, label %10

9:                                                ; preds = %6
  store i32 1, ptr %2, align 4
  br label %22

10:                                               ; preds = %6, %1
  %11 = load i32, ptr %3, align 4
  %12 = icmp sge i32 %11, 97
  br i1 %12, label %13, label %17

13:                                               ; preds = %10
  %14 = load i32, ptr %3, align 4
  %15 = icmp sle i32 %14, 122
  br i1 %15, label %16, label %17

16:                                               ; preds = %13
  store i32 2, ptr %2, align 4
  br label %22

17:                                               ; preds = %13, %10
  %18 = load i32, ptr %3, align 4
  %19 = icmp eq i32 %18, 32
  br i1 %19, label %20, label %21

20:                                               ; preds = %17
  store i32 3, ptr %2, align 4
  br label %22

21:                                               ; preds = %17
  store i32 4, ptr %2, align 4
  br label %22

22:                                               ; preds = %21, %20, %16, %9
  %23 = load i32, ptr %2, align 4
  ret i32 %23
}

; Function Attrs: noinline nounwind optnone uwtable
define internal void @tell(i32 noundef %0) #0 {
  %2 = alloca i32, align 4
  store i32 %0, ptr %2, align 4
  %3 = load i32, ptr %2, align 4
  switch i32 %3, label %12 [
    i32 1, label %4
    i32 2, label %6
    i32 3, label %8
    i32 4, label %10
  ]

4:                                                ; preds = %1
  %5 = call i32 @putchar(i32 noundef 110)
  br label %13

6:                                                ; preds = %1
  %7 = call i32 @putchar(i32 noundef 119)
  br label %13

8:                                                ; preds = %1
  %9 = call i32 @putchar(i32 noundef 115)
  br label %13

10:                                               ; preds = %1
  %11 = call i32 @putchar(i32 noundef 63)
  br label %13

12:                                               ; preds = %1
  br label %13

13:                                               ; preds = %12, %10, %8, %6, %4
  ret void
}

declare i32 @putchar(i32 noundef) #1

attributes #0 = { noinline nounwind optnone uwtable "frame-pointer"="all" "min-legal-vector-width"="0" "no-trapping-math"="true" "stack-protector-buffer-size"="8" "target-cpu"="x86-64" "target-features"="+cx8,+fxsr,+mmx,+sse,+sse2,+x87" "tune-cpu"="generic" }
attributes #1 = { "frame-pointer"="all" "no-trapping-math"="true" "stack-protector-buffer-size"="8" "target-cpu"="x86-64" "target-features"="+cx8,+fxsr,+mmx,+sse,+sse2,+x87" "tune-cpu"="generic" }

!llvm.module.flags = !{!0, !1, !2, !3, !4}

!0 = !{i32 1, !"wchar_size", i32 4}
!1 = !{i32 7, !"PIC Level", i32 2}
!2 = !{i32 7, !"PIE Level", i32 2}
!3 = !{i32 7, !"uwtable", i32 1}
!4 = !{i32 7, !"frame-pointer", i32 2}
!5 = distinct !{!5, !6}
!6 = !{!"llvm.loop.mustprogress"}
